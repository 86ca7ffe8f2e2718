//! The elements 1 (H) to 103 (Lr), D and T: document 01, "Rows" (ATOMLIST).

/// The symbols of elements 1 to 103, in order.
pub const SYMBOLS: [&str; 103] = [
    "H", "He", "Li", "Be", "B", "C", "N", "O", "F", "Ne", "Na", "Mg", "Al", "Si", "P", "S", "Cl", "Ar", "K",
    "Ca", "Sc", "Ti", "V", "Cr", "Mn", "Fe", "Co", "Ni", "Cu", "Zn", "Ga", "Ge", "As", "Se", "Br", "Kr",
    "Rb", "Sr", "Y", "Zr", "Nb", "Mo", "Tc", "Ru", "Rh", "Pd", "Ag", "Cd", "In", "Sn", "Sb", "Te", "I", "Xe",
    "Cs", "Ba", "La", "Ce", "Pr", "Nd", "Pm", "Sm", "Eu", "Gd", "Tb", "Dy", "Ho", "Er", "Tm", "Yb", "Lu",
    "Hf", "Ta", "W", "Re", "Os", "Ir", "Pt", "Au", "Hg", "Tl", "Pb", "Bi", "Po", "At", "Rn", "Fr", "Ra",
    "Ac", "Th", "Pa", "U", "Np", "Pu", "Am", "Cm", "Bk", "Cf", "Es", "Fm", "Md", "No", "Lr",
];

/// Element and mass (0 none) of a symbol with its mass, or none if it is unknown. "D and T are
/// hydrogen of mass 2 and 3 and take no `^`."
pub fn element(letters: &[u8], mass: Option<i32>) -> Option<(i32, i32)> {
    match letters {
        b"D" if mass.is_none() => Some((1, 2)),
        b"T" if mass.is_none() => Some((1, 3)),
        b"D" | b"T" => None,
        _ => {
            let index = SYMBOLS.iter().position(|symbol| symbol.as_bytes() == letters)?;
            Some((index as i32 + 1, mass.unwrap_or(0)))
        }
    }
}

/// How an element of a mass is written: `D` and `T` for hydrogen 2 and 3.
pub fn written(element: i32, mass: i32) -> String {
    let symbol = SYMBOLS[element as usize - 1];
    match (element, mass) {
        (1, 2) => "D".to_string(),
        (1, 3) => "T".to_string(),
        (_, 0) => symbol.to_string(),
        _ => format!("^{mass}{symbol}"),
    }
}

/// Where an element stands in the written formula: "C, H, then by symbol, a shorter symbol before
/// its extension".
pub fn written_order(element: i32) -> (u8, &'static str) {
    let symbol = SYMBOLS[element as usize - 1];
    match symbol {
        "C" => (0, symbol),
        "H" => (1, symbol),
        _ => (2, symbol),
    }
}
