
// What follows is appended to the Rust under test, to show what it keeps to itself.

/// The entries in order: for each component whether its binding is loose and its name (none for
/// `?`); then the value.
pub fn entries_of(database: &Database) -> Vec<(Vec<(bool, Option<String>)>, Vec<u8>)> {
    let part = |(binding, component): &(Binding, Component)| {
        let name = match component {
            Component::Normal(name) => Some(name.clone()),
            Component::Wildcard => None,
        };
        (*binding == Binding::Loose, name)
    };
    let parts = |entry: &Entry| entry.components.iter().map(part).collect();
    database.entries.iter().map(|entry| (parts(entry), entry.value.clone())).collect()
}

/// A database of such entries.
pub fn database_of(entries: Vec<(Vec<(bool, Option<String>)>, Vec<u8>)>) -> Database {
    let part = |(is_loose, name): (bool, Option<String>)| {
        let binding = if is_loose { Binding::Loose } else { Binding::Tight };
        (binding, name.map_or(Component::Wildcard, Component::Normal))
    };
    let entry = |(parts, value): (Vec<_>, _)| Entry { components: parts.into_iter().map(part).collect(), value };
    Database { entries: entries.into_iter().map(entry).collect() }
}

/// The depth at which it reads.
pub const DEPTH: u8 = MAX_INCLUSION_DEPTH;

/// The boolean that a string says.
pub fn boolean_of(data: &str) -> Option<bool> {
    to_bool(data)
}
