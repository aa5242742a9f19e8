// What follows is appended for the benchmark.

/// Reads as `Database::new_from_data_with_base_directory` does, with files that are in memory
/// instead of a directory: names that rise, and bodies.
pub fn read_in_memory(data: &[u8], files: &[(&str, &[u8])]) -> Database {
    let mut entries = Vec::new();
    parse_data_in_memory(&mut entries, data, "", files, 0);
    Database { entries }
}

fn parse_data_in_memory(result: &mut Vec<Entry>, data: &[u8], base: &str, files: &[(&str, &[u8])], depth: u8) {
    if depth > MAX_INCLUSION_DEPTH {
        return;
    }
    parser::parse_database(data, result, |path, entries| {
        if let Ok(path) = std::str::from_utf8(path) {
            let mut name = String::with_capacity(base.len() + 1 + path.len());
            if !base.is_empty() {
                name.push_str(base);
                name.push('/');
            }
            name.push_str(path);
            if let Ok(at) = files.binary_search_by(|(of, _)| (*of).cmp(&name)) {
                let base = name.rsplit_once('/').map_or("", |(folder, _)| folder);
                parse_data_in_memory(entries, files[at].1, base, files, depth + 1);
            }
        }
    });
}
