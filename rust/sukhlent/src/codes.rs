//! The codes of the 24 local Cliffords by name.
//!
//! A code is 4 times its class, plus 2 sx, plus sz. The class gives the letters to which X and Z
//! go; sx or sz is 1 where that image is negative. The names are those that Stim uses.
//!
//! ```
//! use sukhlent::{codes, expand, gate, Record};
//!
//! let mut record = Record::zeros(1);
//! gate(&mut record, 0, codes::H)?;
//! gate(&mut record, 0, codes::S)?;
//! assert_eq!(expand(&record)?.to_string(), "+Y\n");
//! # Ok::<(), sukhlent::Refusal>(())
//! ```

/// The names, by code.
///
/// ```
/// use sukhlent::codes;
///
/// assert_eq!(codes::NAMES[codes::SQRT_X as usize], "SQRT_X");
/// ```
pub const NAMES: [&str; 24] = [
    "I",
    "X",
    "Z",
    "Y",
    "S",
    "H_XY",
    "S_DAG",
    "H_NXY",
    "H",
    "SQRT_Y_DAG",
    "SQRT_Y",
    "H_NXZ",
    "SQRT_X_DAG",
    "SQRT_X",
    "H_YZ",
    "H_NYZ",
    "C_XYZ",
    "C_XYNZ",
    "C_XNYZ",
    "C_NXYZ",
    "C_ZYX",
    "C_ZNYX",
    "C_ZYNX",
    "C_NZYX",
];

/// The short forms that drawings have for some of the names.
const SHORT: [(&str, u8); 5] = [
    ("S†", S_DAG),
    ("√Y†", SQRT_Y_DAG),
    ("√Y", SQRT_Y),
    ("√X†", SQRT_X_DAG),
    ("√X", SQRT_X),
];

/// The code with this name, or with this short form in drawings: S†, √X, √X†, √Y, √Y†. Upper or
/// lower case is the same. Python's `code` takes the same spellings.
///
/// ```
/// use sukhlent::codes;
///
/// assert_eq!(codes::named("S_DAG"), Some(codes::S_DAG));
/// assert_eq!(codes::named("sqrt_x"), Some(codes::SQRT_X));
/// assert_eq!(codes::named("√X†"), Some(codes::SQRT_X_DAG));
/// assert_eq!(codes::named("T"), None);
/// ```
pub fn named(name: &str) -> Option<u8> {
    let names = NAMES.into_iter().zip(0..);
    let found = names
        .chain(SHORT)
        .find(|(known, _)| known.eq_ignore_ascii_case(name));
    found.map(|(_, code)| code)
}

/// Where a code sends X and Z, as signed letters; none for a number above 23.
///
/// ```
/// use sukhlent::codes;
///
/// assert_eq!(codes::images(codes::H), Some(["+Z".into(), "+X".into()]));
/// assert_eq!(codes::images(codes::S_DAG), Some(["-Y".into(), "+Z".into()]));
/// assert_eq!(codes::images(24), None);
/// ```
pub fn images(code: u8) -> Option<[String; 2]> {
    let classes = [
        ['X', 'Z'],
        ['Y', 'Z'],
        ['Z', 'X'],
        ['X', 'Y'],
        ['Y', 'X'],
        ['Z', 'Y'],
    ];
    let [x, z] = *classes.get(usize::from(code / 4))?;
    let signed =
        |minus: u8, letter: char| format!("{}{letter}", if minus == 1 { '-' } else { '+' });
    Some([signed(code >> 1 & 1, x), signed(code & 1, z)])
}

macro_rules! named_codes {
    ($($name:ident $code:literal $sends:literal;)*) => {
        $(
            #[doc = concat!("X and Z go to ", $sends, ".")]
            ///
            /// ```
            /// use sukhlent::codes;
            ///
            #[doc = concat!("let [x, z] = codes::images(codes::", stringify!($name), ").unwrap();")]
            #[doc = concat!("assert_eq!(format!(\"{x}, {z}\"), \"", $sends, "\");")]
            /// ```
            pub const $name: u8 = $code;
        )*

        #[cfg(test)]
        /// The constants, with their names.
        const NAMED: [(&str, u8); 24] = [$((stringify!($name), $name)),*];
    };
}

named_codes! {
    I 0 "+X, +Z";
    X 1 "+X, -Z";
    Z 2 "-X, +Z";
    Y 3 "-X, -Z";
    S 4 "+Y, +Z";
    H_XY 5 "+Y, -Z";
    S_DAG 6 "-Y, +Z";
    H_NXY 7 "-Y, -Z";
    H 8 "+Z, +X";
    SQRT_Y_DAG 9 "+Z, -X";
    SQRT_Y 10 "-Z, +X";
    H_NXZ 11 "-Z, -X";
    SQRT_X_DAG 12 "+X, +Y";
    SQRT_X 13 "+X, -Y";
    H_YZ 14 "-X, +Y";
    H_NYZ 15 "-X, -Y";
    C_XYZ 16 "+Y, +X";
    C_XYNZ 17 "+Y, -X";
    C_XNYZ 18 "-Y, +X";
    C_NXYZ 19 "-Y, -X";
    C_ZYX 20 "+Z, +Y";
    C_ZNYX 21 "+Z, -Y";
    C_ZYNX 22 "-Z, +Y";
    C_NZYX 23 "-Z, -Y";
}

#[cfg(test)]
mod tests {
    use super::*;

    #[test]
    fn every_code_has_its_name() {
        for (code, (name, number)) in NAMED.into_iter().enumerate() {
            assert_eq!((NAMES[code], code as u8), (name, number));
            assert_eq!(named(name), Some(number));
            assert_eq!(named(&name.to_lowercase()), Some(number));
        }
    }

    #[test]
    fn the_short_forms_are_those_of_python() {
        let source = include_str!("../../../python/sukhlent/codes.py");
        let forms = source.split("SYMBOLS: tuple[str, ...] = (").nth(1).unwrap();
        let forms = forms.split("\n)").next().unwrap();
        let forms: Vec<&str> = forms.split('"').skip(1).step_by(2).collect();
        assert_eq!(forms.len(), 24);
        for (code, form) in forms.into_iter().enumerate().skip(1) {
            assert_eq!(named(form), Some(code as u8), "{form}");
            assert_eq!(named(&form.to_lowercase()), Some(code as u8), "{form}");
            assert!(form == NAMES[code] || SHORT.contains(&(form, code as u8)));
        }
    }

    #[test]
    fn other_spellings_are_none() {
        for name in [
            "",
            " H",
            "H ",
            "SQRT-X",
            "√S",
            "√x_DAG",
            "SQRT_X†",
            "ſ",
            "ı",
            "T",
        ] {
            assert_eq!(named(name), None, "{name}");
        }
    }
}
