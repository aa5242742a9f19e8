//! The depth of a reading, and faults of it that the comparison must tell.

use crate::both::{Answer, Both, Calls, PORTS, SHAPES};
use model::startup::StartUp;
use port::{read_default_depth_word, read_depth_word};
use records::{archive_of, Source};

/// Faults of the port, in the calls that take a depth and in those that are given none.
const FAULTS: [(&str, Calls); 11] = [
    ("a depth held at 100", Calls { read_depth: |t, a, d, c, b| read_depth_word(t, a, d.min(100), c, b), ..PORTS }),
    ("a depth of 8 bits", Calls { read_depth: |t, a, d, c, b| read_depth_word(t, a, d & 0xFF, c, b), ..PORTS }),
    ("a depth of 32 bits", Calls { read_depth: |t, a, d, c, b| read_depth_word(t, a, d as u32 as u64, c, b), ..PORTS }),
    ("a depth more", Calls { read_depth: |t, a, d, c, b| read_depth_word(t, a, d.saturating_add(1), c, b), ..PORTS }),
    ("depth 0 that opens", Calls { read_depth: |t, a, d, c, b| read_depth_word(t, a, d.max(1), c, b), ..PORTS }),
    ("15 before 3", Calls { read_depth: |t, a, d, c, b| if d > 100 { 15 } else { read_depth_word(t, a, d, c, b) }, ..PORTS }),
    ("15 that clears", Calls { read_depth: cleared, ..PORTS }),
    ("100 where none is given", Calls { read_plain: port::read_word, ..PORTS }),
    ("21 where none is given", Calls { read_plain: |t, a, c, b| read_depth_word(t, a, 21, c, b), ..PORTS }),
    ("20 for a start-up", Calls { read_default: |s, a, c, b| read_default_depth_word(s, a, 20, c, b), ..PORTS }),
    (
        "a start-up's depth held at 100",
        Calls { read_default_depth: |s, a, d, c, b| read_default_depth_word(s, a, d.min(100), c, b), ..PORTS },
    ),
];

fn cleared(text: &[u8], archive: &[u8], depth: u64, contents: &mut [u16], bodies: &mut [u8]) -> u64 {
    let word = read_depth_word(text, archive, depth, contents, bodies);
    if word == 15 {
        contents.fill(0);
    }
    word
}

/// Depths within the limit and over it, with what each gives: of a file that includes itself and then has an entry, as many opens and
/// entries as the depth; in a start-up of two such texts twice as many. 15 comes after 2 and 3, and before 5.
pub fn depths(calls: Calls) -> Result<String, String> {
    const TEXT: &[u8] = b"#include \"p\"";
    let archive = archive_of(&[(b"p", b"#include \"p\"\na:1")]);
    let text = Source::text(TEXT.to_vec(), archive.clone());
    let start_up = StartUp { xresources: Some(TEXT.to_vec()), host: Some(TEXT.to_vec()), ..StartUp::default() };
    let chain = Source::chain(start_up.clone(), archive.clone());
    let wide = Source::text([&b"a.".repeat(16)[..], b"a:"].concat(), archive.clone());
    let bad = [Source::text(TEXT.to_vec(), vec![]), Source::chain(start_up, vec![])];
    let long = Source::text(vec![b'\n'; 32_769], archive);
    let mut both = Both::new(calls);
    let mut count = 0;
    let mut expect = |source: Source, expected: Answer| {
        count += 1;
        match both.compare(&source)? {
            answer if answer == expected => Ok(()),
            answer => Err(format!("{answer:?} at depth {}, and not {expected:?}", source.depth)),
        }
    };
    // Each of the shapes; and both calls at 20, which take turns, as each round has an odd number of readings.
    for _ in 0..SHAPES.len() + 1 {
        expect(text.at(20), Ok((20, 20)))?;
        for depth in [0, 1, 2, 19, 20, 21, 99, 100] {
            let opens = depth as usize;
            expect(text.at(depth), Ok((opens, opens)))?;
            expect(chain.at(depth), Ok((2 * opens, 2 * opens)))?;
        }
        for depth in [101, 127, 255, 256, 65_536 + 20, (1 << 32) + 3, 1 << 63, u64::MAX] {
            for source in [&text, &chain, &wide] {
                expect(source.at(depth), Err(15))?;
            }
            for source in &bad {
                expect(source.at(depth), Err(3))?;
            }
            expect(long.at(depth), Err(2))?;
        }
    }
    Ok(format!("{count} readings"))
}

/// Every fault is told, and the port as it is is not.
pub fn faults_seen() -> Result<String, String> {
    depths(PORTS)?;
    match FAULTS.iter().find(|(_, calls)| depths(*calls).is_ok()) {
        Some((label, _)) => Err(format!("not seen: {label}")),
        None => Ok(format!("{} faults told", FAULTS.len())),
    }
}
