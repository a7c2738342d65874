//! What is accepted is read without allocation, and a colour is written without one.

use std::alloc::{GlobalAlloc, Layout, System};
use std::cell::Cell;
use std::hint::black_box;
use std::str::FromStr;

use homeludaf::{
    inherited, inherited_from, Angle, Color, FilterValueListParser, FuncIRI, Length,
    LengthListParser, Paint, IRI,
};

/// The system's allocator, counting the calls of this thread.
struct Counting;

thread_local! {
    static COUNT: Cell<usize> = const { Cell::new(0) };
}

// SAFETY: everything is handed to the system's allocator unchanged.
unsafe impl GlobalAlloc for Counting {
    unsafe fn alloc(&self, layout: Layout) -> *mut u8 {
        COUNT.with(|c| c.set(c.get() + 1));
        System.alloc(layout)
    }

    unsafe fn dealloc(&self, pointer: *mut u8, layout: Layout) {
        System.dealloc(pointer, layout)
    }
}

#[global_allocator]
static ALLOCATOR: Counting = Counting;

fn allocations(work: impl FnOnce()) -> usize {
    let before = COUNT.with(Cell::get);
    work();
    COUNT.with(Cell::get) - before
}

#[test]
fn none_on_the_accepting_path() {
    let count = allocations(|| {
        for text in [
            "#fff",
            "MidnightBlue",
            "hsl(10, 20%, 30%)",
            "rgba(1,2,3,.5)",
            "TEAL",
        ] {
            black_box(Color::from_str(text).unwrap());
        }
        black_box((Color::red().hex(), Color::red().keyword()));
        black_box(Length::from_str("1.5em").unwrap());
        black_box(Angle::from_str("1rad").unwrap());
        black_box(Length::written("1.5em").unwrap());
        black_box(Angle::written("1rad").unwrap());
        assert_eq!(LengthListParser::written("1 2.0").count(), 2);
        black_box(IRI::from_str("#a").unwrap());
        black_box(FuncIRI::from_str("url('#a')").unwrap());
        black_box(Paint::from_str("url(#a) Teal").unwrap());
        black_box(inherited("", " red").unwrap());
        black_box(inherited_from("", ["inherit", " ", "red"]).unwrap());
        assert_eq!(LengthListParser::from("1 2 3").count(), 3);
        let list = FilterValueListParser::from("drop-shadow(1 2 Red) url(#a) blur()");
        assert_eq!(list.map(Result::unwrap).count(), 3);
    });
    assert_eq!(count, 0);
    // Nor is a refusal that comes whole.
    let count = allocations(|| {
        for text in ["rgba(0,0,0,50%)", "rgb(1e23,0,0)", "rgb(1, "] {
            black_box(Color::read(text).unwrap_err());
        }
        black_box(FuncIRI::read("uri(#a)").unwrap_err());
        black_box(inherited("inherit", "url(#a) rgb[1").unwrap_err());
        assert_eq!(LengthListParser::read("1 2 x").count(), 3);
        assert_eq!(FilterValueListParser::read("blur() blur(-1)").count(), 2);
    });
    assert_eq!(count, 0);
    // The counter counts.
    assert_eq!(allocations(|| drop(black_box(Box::new(1)))), 1);
}
