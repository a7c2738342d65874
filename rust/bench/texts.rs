//! The texts that are timed.

use crate::{Kind, Text};

pub struct Class {
    pub name: &'static str,
    pub texts: Vec<Text>,
}

impl Class {
    pub fn bytes(&self) -> usize {
        self.texts.iter().map(|(_, text)| text.len()).sum()
    }
}

/// Each of some texts, to be read as one kind.
fn read_as(kind: Kind, texts: &[&str]) -> Vec<Text> {
    texts.iter().map(|text| (kind, text.to_string())).collect()
}

/// Each line of a file of bench/wild, to be read as one kind.
fn wild_class(name: &'static str, kind: Kind, lines: &str) -> Class {
    let texts = lines.lines().map(|line| (kind, line.to_string())).collect();
    Class { name, texts }
}

/// Colours as drawing programs and people write them.
const COLORS: [&str; 40] = [
    "#000",
    "#fff",
    "#FFF",
    "#f60",
    "#000000",
    "#ffffff",
    "#FFFFFF",
    "#1a1a1a",
    "#ff6600",
    "#3E7BFA",
    "#d40000",
    "#4D4d4D",
    "#231f20",
    "#00A651",
    "#ed1c24",
    "#abcd",
    "#11223380",
    "#00000080",
    "rgb(0,0,0)",
    "rgb(255, 255, 255)",
    "rgb(34, 139, 34)",
    "rgb(100%, 50%, 0%)",
    "rgb(13.72549%,13.72549%,13.72549%)",
    "rgba(0,0,0,0.5)",
    "rgba(255, 0, 0, .25)",
    "RGB(12, 34, 56)",
    "hsl(120, 100%, 50%)",
    "hsla(210,50%,40%,0.8)",
    "black",
    "white",
    "none-such",
    "red",
    "Red",
    "blue",
    "green",
    "gray",
    "transparent",
    "darkslategray",
    "LightGoldenRodYellow",
    "steelblue",
];

const PAINTS: [&str; 24] = [
    "none",
    "currentColor",
    "inherit",
    "context-stroke",
    "#231f20",
    "#fff",
    "black",
    "rgb(255, 255, 255)",
    "url(#a)",
    "url(#linearGradient4567)",
    "url('#paint0_linear_12_345')",
    "url(\"#SVGID_1_\")",
    "url(#SVGID_00000012345678901234567890_)",
    "url(#a) none",
    "url(#a) currentColor",
    "url(#a) #fff",
    "url(#a) #231f20",
    "url(#a) black",
    "url(#a) rgb(255, 255, 255)",
    "url(#linearGradient4567) rgb(13%, 27%, 80%)",
    "url(#radial-gradient-2) lightgoldenrodyellow",
    " url(#paint0_radial) #00A651 ",
    "url('#swatch5') hsl(120, 100%, 50%)",
    "  #ed1c24  ",
];

const LENGTHS: [&str; 16] = [
    "0",
    "1",
    "10",
    "100%",
    "12.5",
    "-3",
    ".5",
    "210mm",
    "297mm",
    "1.5em",
    "12pt",
    "0.75in",
    "-0.00012",
    "1e3",
    "1024px",
    "33.333333%",
];

const LENGTH_LISTS: [&str; 8] = [
    "0 0 24 24",
    "10 20 30 40",
    "10px 20px 30px 40px",
    "1.5,2.5,3.5,4.5",
    "5%, 10%, 15%, 20%, 25%",
    "0.1 0.22 0.333 0.4444 0.55555 0.666666 0.7777777",
    "12.5em 13.5ex 14.5px 15.5in 16.5cm 17.5mm 18.5pt 19.5pc",
    "1,2,3,4,5,6,7,8,9,10,11,12,13,14,15,16,17,18,19,20,21,22,23,24,25",
];

const REFUSED: [(Kind, &str); 32] = [
    (Kind::Color, ""),
    (Kind::Color, "#"),
    (Kind::Color, "#12"),
    (Kind::Color, "#12345"),
    (Kind::Color, "#ggg"),
    (Kind::Color, "rgb(1,2,x)"),
    (Kind::Color, "rgb(1,2"),
    (Kind::Color, "rgba(1,2,3,)"),
    (Kind::Color, "hsl(120deg, 100%, 50%)"),
    (Kind::Color, "redd"),
    (Kind::Color, "lightgoldenrodyello"),
    (Kind::Color, "qwerty"),
    (Kind::Color, "color(display-p3 1 0 0)"),
    (Kind::Color, "currentColor"),
    (Kind::Paint, "{{ fill }}"),
    (Kind::Paint, "var(--brand)"),
    (Kind::Paint, "url(#a"),
    (Kind::Paint, "url(#a) qwerty"),
    (Kind::Paint, "rgb 1 2 3"),
    (Kind::Length, ""),
    (Kind::Length, "auto"),
    (Kind::Length, "10 px"),
    (Kind::Lengths, "10px 20px thirty"),
    (Kind::Angle, "45degrees"),
    (Kind::FuncIri, "url()"),
    (Kind::FuncIri, "#a"),
    (Kind::Filters, "blur(-5px)"),
    (Kind::Filters, "blur(5%)"),
    (Kind::Filters, "drop-shadow(red)"),
    (Kind::Filters, "hue-rotate(45)"),
    (Kind::Filters, "blur(5px), opacity(50%)"),
    (
        Kind::Filters,
        "drop-shadow(0 1px 2px rgba(0,0,0,.5)) glow(1)",
    ),
];

/// One value of each kind, to be strung together.
const VALUES: [&str; 16] = [
    "blur(5px)",
    "drop-shadow(2px 4px 6px black)",
    "brightness(0.4)",
    "contrast(200%)",
    "grayscale(50%)",
    "hue-rotate(90deg)",
    "invert(75%)",
    "opacity(25%)",
    "saturate(30%)",
    "sepia(60%)",
    "url(#filter0_d_1_2)",
    "drop-shadow(rgba(0,0,0,0.25) 0 4px 4px)",
    "blur(.5)",
    "brightness(110%)",
    "url(#glow)",
    "drop-shadow(0 0 1 #00A651)",
];

/// A list of so many values, each list from another one on.
fn filters(count: usize) -> String {
    let of = |i: usize| VALUES[(count + i) % VALUES.len()];
    (0..count).map(of).collect::<Vec<_>>().join(" ")
}

/// A list of exactly so many bytes: what fits, and spaces.
fn filled(bytes: usize, values: &[&str]) -> String {
    let mut text = String::new();
    for value in values.iter().cycle() {
        if text.len() + value.len() > bytes {
            break;
        }
        text.push_str(value);
        text.push(' ');
    }
    text.truncate(bytes);
    format!("{text:<bytes$}")
}

/// Texts that were chosen for this benchmark.
pub fn chosen() -> Vec<Class> {
    let mut lengths = read_as(Kind::Length, &LENGTHS);
    lengths.extend(read_as(Kind::Lengths, &LENGTH_LISTS));
    let of = |(kind, text): &(Kind, &str)| (*kind, text.to_string());
    vec![
        Class {
            name: "(a) colours",
            texts: read_as(Kind::Color, &COLORS),
        },
        Class {
            name: "(b) paints",
            texts: read_as(Kind::Paint, &PAINTS),
        },
        Class {
            name: "(c) lengths and lists of lengths",
            texts: lengths,
        },
        Class {
            name: "(d) filter lists of 1 to 30 values",
            texts: (1..=30).map(|n| (Kind::Filters, filters(n))).collect(),
        },
        Class {
            name: "(e) refused texts",
            texts: REFUSED.iter().map(of).collect(),
        },
        Class {
            name: "(f) a filter list of 4,096 bytes",
            texts: vec![(Kind::Filters, filled(4096, &VALUES))],
        },
    ]
}

/// Texts as found in SVG files, a class for each reader: bench/wild/README.md.
pub fn wild() -> Vec<Class> {
    vec![
        wild_class("colours", Kind::Color, include_str!("wild/color.txt")),
        wild_class("paints", Kind::Paint, include_str!("wild/paint.txt")),
        wild_class("lengths", Kind::Length, include_str!("wild/length.txt")),
        wild_class(
            "lists of lengths",
            Kind::Lengths,
            include_str!("wild/lengths.txt"),
        ),
        wild_class("angles", Kind::Angle, include_str!("wild/angle.txt")),
        wild_class("links", Kind::Iri, include_str!("wild/iri.txt")),
        wild_class(
            "function links",
            Kind::FuncIri,
            include_str!("wild/funciri.txt"),
        ),
        wild_class(
            "filter lists",
            Kind::Filters,
            include_str!("wild/filter.txt"),
        ),
    ]
}

/// Lists of three sizes, to see what a byte costs.
pub fn growing() -> Vec<Class> {
    let lengths = ["1", "22.5px", "-3.75", "100%"];
    let mut all = Vec::new();
    for bytes in [256, 1024, 4096] {
        all.push(Class {
            name: "filter values",
            texts: vec![(Kind::Filters, filled(bytes, &VALUES))],
        });
    }
    for bytes in [256, 1024, 4096] {
        all.push(Class {
            name: "lengths",
            texts: vec![(Kind::Lengths, filled(bytes, &lengths))],
        });
    }
    all
}
