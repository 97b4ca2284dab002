//! The kinds by name.

/// In the order of their numbers, from 1.
const NAMES: &str = "join leave learn send-update receive-update send-write receive-write connect \
    close handle-update handle-write shutdown startup";

pub fn names() -> Vec<&'static str> {
    NAMES.split(' ').collect()
}

pub fn kind_of(name: &[u8]) -> Option<u8> {
    names().iter().position(|known| known.as_bytes() == name).map(|at| at as u8 + 1)
}

/// The kind's name, or its number if there is no such kind.
pub fn name_of(kind: u8) -> String {
    let name = usize::from(kind).checked_sub(1).and_then(|at| names().get(at).copied());
    name.map_or_else(|| kind.to_string(), str::to_string)
}
