//! 43: a name undeclared, declared twice, or an `assign` other than once to each wire.

use std::collections::{HashMap, HashSet};

use crate::text::scan::{Kind as TokenKind, Token};
use crate::text::tree::{Kind, Source};

/// The lowest place of a name at fault.
pub fn fault(source: &Source, tokens: &[Token]) -> Option<usize> {
    let mut places = Vec::new();
    let mut kinds: HashMap<&[u8], Kind> = HashMap::new();
    for declaration in &source.declarations {
        let name = declaration.name;
        if kinds.insert(name.spelled, declaration.kind).is_some() {
            places.push(name.place);
        }
    }
    // The module's own name, the second token, belongs to another name space.
    for token in tokens.iter().skip(2).filter(|token| token.kind == TokenKind::Name) {
        if !kinds.contains_key(token.spelled) {
            places.push(token.place);
        }
    }
    let wires: HashSet<&[u8]> = source.of(Kind::Wire).map(|wire| wire.name.spelled).collect();
    let mut driven: HashSet<&[u8]> = HashSet::new();
    for (target, _) in &source.assigns {
        if !wires.contains(target.spelled) || !driven.insert(target.spelled) {
            places.push(target.place);
        }
    }
    let idle = source.of(Kind::Wire).filter(|wire| !driven.contains(wire.name.spelled));
    places.extend(idle.map(|wire| wire.name.place));
    places.into_iter().min()
}
