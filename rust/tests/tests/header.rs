//! The header, as C and C++ compilers read it, declares what the archive exports.

use conformance::built::{archive, include, is_found, program_of_readme, root, source};
use conformance::calls::uncounted;
use conformance::rows::strengths;
use conformance::searches::{any_at, span};
use conformance::{Call, Outcome, Random, Region, Search};
use reference::searching::{NUMBERS, places};
use reference::{Answer, Numbers};
use std::fs;
use std::io::Write;
use std::path::{Path, PathBuf};
use std::process::{Command, Stdio};

const SEED: u64 = 99;

/// Builds the caller with every warning an error.
fn build(compiler: &str, language: &[&str], name: &str) -> PathBuf {
    let program = Path::new(env!("CARGO_TARGET_TMPDIR")).join(name);
    let status = Command::new(compiler)
        .args(language)
        .args(["-Wall", "-Wextra", "-pedantic", "-Werror", "-I"])
        .arg(include())
        .arg(source("call.c"))
        .args(["-x", "none"])
        .arg(archive())
        .arg("-o")
        .arg(&program)
        .status()
        .expect("a compiler");
    assert!(status.success(), "{compiler} takes the header");
    program
}

/// What the program prints for these arguments.
fn printed(program: &Path, arguments: &[String]) -> String {
    let output = Command::new(program)
        .args(arguments)
        .output()
        .expect("the program runs");
    assert!(output.status.success(), "{arguments:?}");
    String::from_utf8(output.stdout).expect("text")
}

/// A list with a comma behind each entry.
fn list<T: ToString>(entries: &[T]) -> String {
    entries
        .iter()
        .map(|entry| entry.to_string() + ",")
        .collect()
}

/// The numbers of the calls: no two of RNTI, n_ID and n_RNTI can be taken for each other.
fn numbers(a: u64, e: u64) -> Numbers {
    Numbers {
        a,
        e,
        rnti: 0x4601,
        n_id: 0xFFFF,
        n_rnti: 0xB5C2,
    }
}

/// A call of the program must print what the reference gives for it. Gives its noise count.
fn assert_call(
    program: &Path,
    name: &str,
    (a, e, out_len): (u64, u64, usize),
    lists: &[String],
    reference: impl FnOnce(&Numbers, &mut [u8]) -> Answer,
) -> usize {
    let numbers = numbers(a, e);
    let mut out = vec![9; out_len];
    let outcome = Outcome::of(reference(&numbers, &mut out), out);
    let short = [numbers.rnti, numbers.n_id, numbers.n_rnti].map(|x| x.to_string());
    let [a, e, out_len] = [a, e, out_len as u64].map(|x| x.to_string());
    let arguments = [&[name.to_string(), a, e], &short[..], &[out_len], lists].concat();
    let said = printed(program, &arguments);
    assert_eq!(said, line(&outcome), "{arguments:?}");
    outcome.noise
}

/// What the program prints for an outcome: the number, the place, the noise count and the output.
fn line(outcome: &Outcome) -> String {
    let Outcome {
        number,
        place,
        noise,
        out,
    } = outcome;
    let digits: String = out.iter().map(u8::to_string).collect();
    format!("{number} {place} {noise} {digits}\n")
}

fn assert_encode(program: &Path, a: u64, e: u64, payload: &[u8], out_len: usize) {
    let lists = [list(payload)];
    assert_call(
        program,
        "encode",
        (a, e, out_len),
        &lists,
        |numbers, out| uncounted(reference::encode(numbers, payload, out)),
    );
}

fn assert_decode(program: &Path, a: u64, e: u64, soft: &[i32], out_len: usize) -> usize {
    let lists = [list(soft)];
    assert_call(
        program,
        "decode",
        (a, e, out_len),
        &lists,
        |numbers, out| reference::decode(numbers, soft, out),
    )
}

fn assert_loopback(program: &Path, a: u64, e: u64, inputs: (&[u8], &[i32]), out_len: usize) {
    let (payload, strengths) = inputs;
    let lists = [list(payload), list(strengths)];
    assert_call(
        program,
        "loopback",
        (a, e, out_len),
        &lists,
        |numbers, out| reference::loopback(numbers, payload, strengths, out),
    );
}

fn assert_describe(program: &Path, a: u64, e: u64, out_len: usize) {
    assert_call(program, "describe", (a, e, out_len), &[], |_, out| {
        uncounted(reference::describe(a, e, out))
    });
}

/// A search of the program must print what the reference gives for it, with as many candidates as
/// there are, with a count of them, and with the list as numbers. Gives its noise count.
fn assert_search(program: &Path, search: &Search) -> usize {
    let region = list(&search.region[..search.region_len]);
    let numbers = &search.list[..search.list_len];
    let expected = search.reference();
    let ask = |name: &str, count: &[String]| {
        // A, E, RNTI and n_RNTI are not used.
        let (n_id, out_len) = (search.n_id.to_string(), expected.out.len().to_string());
        let numbers_of_call = [name, "0", "0", "0", &n_id, "0", &out_len].map(String::from);
        let inputs = [region.clone(), list(numbers)];
        let arguments = [&numbers_of_call[..], &inputs, count].concat();
        let said = printed(program, &arguments);
        assert_eq!(said, line(&expected), "{arguments:?}");
    };
    ask("list", &[]);
    if numbers.len() % NUMBERS == 0 {
        ask("search", &[(numbers.len() / NUMBERS).to_string()]);
    }
    if numbers.len() == 45 * NUMBERS {
        // Counts whose fivefold is just below wrapping or wraps to 4, 9, 219 and 1, and the greatest.
        let fifth = usize::MAX / 5;
        for count in [
            fifth,
            fifth + 1,
            fifth + 2,
            fifth + 44,
            4 * fifth + 1,
            usize::MAX,
        ] {
            ask("search", &[count.to_string()]);
        }
    }
    expected.noise
}

fn assert_searches(program: &Path, random: &mut Random) {
    let all = places(64);
    let mut counted = 0;
    for last in [0, 1, 9, 43] {
        let mut region = Region::noise(64, random);
        let candidates: Vec<_> = (0..=last)
            .map(|_| any_at(random.pick(&all), random))
            .collect();
        let mut search = Search::of(&region, &candidates, random);
        search.out.fill(9);
        assert_search(program, &search);
        region.send(&candidates[last], random);
        search.region = region.values;
        assert_search(program, &search);
        let wrong = &mut search.region[span(&candidates[last])][7];
        *wrong = -wrong.signum();
        counted += assert_search(program, &search);
        search.out.pop();
        assert_search(program, &search);
        search.list_len -= 1;
        assert_search(program, &search);
        search.region_len -= 1;
        assert_search(program, &search);
    }
    assert_eq!(counted, 4);
    assert_wrong_counts(program, random);
}

/// Lists that are empty or too long, and candidates that would be taken for others if a number were
/// cut short.
fn assert_wrong_counts(program: &Path, random: &mut Random) {
    let mut region = Region::noise(16, random);
    let candidate = any_at(places(16)[30], random);
    region.send(&candidate, random);
    let mut search = Search::of(&region, &[candidate; 46], random);
    search.out.fill(9);
    for count in [0, 1, 44, 45, 46] {
        search.list_len = NUMBERS * count;
        assert_search(program, &search);
    }
    search.list_len = NUMBERS;
    for field in 0..NUMBERS {
        for far in [1 << 16, 1 << 30, 1 << 31] {
            let mut other = search.clone();
            other.list[field] += far;
            assert_search(program, &other);
        }
    }
}

const PAIRS: [(u64, u64); 5] = [(12, 108), (84, 108), (70, 216), (140, 432), (37, 1728)];

fn assert_coding(program: &Path, random: &mut Random) {
    for (a, e) in PAIRS {
        assert_encode(program, a, e, &random.bits(a as usize), e as usize);
    }
    let mut payload = random.bits(40);
    assert_encode(program, u64::MAX, 216, &payload, 216);
    assert_encode(program, 40, 217, &payload, 217);
    assert_encode(program, 41, 216, &payload, 216);
    assert_encode(program, 40, 216, &payload, 0);
    payload[33] = 2;
    assert_encode(program, 40, 216, &payload, 216);
}

fn assert_decoding(program: &Path, random: &mut Random) {
    let mut counted = 0;
    for (a, e) in PAIRS {
        let mut coded = vec![0; e as usize];
        let payload = random.bits(a as usize);
        let answer = reference::encode(&numbers(a, e), &payload, &mut coded);
        assert_eq!(answer, (0, 0));
        let soft = reference::noiseless(&coded, &strengths(e as usize, random));
        assert_decode(program, a, e, &soft, a as usize);
        let noise: Vec<i32> = soft.iter().map(|value| value * random.sign()).collect();
        assert_decode(program, a, e, &noise, a as usize);
        let mut wrong = soft;
        wrong[7] = -wrong[7].signum();
        counted += assert_decode(program, a, e, &wrong, a as usize);
    }
    // All but A = 84 at E = 108, which has no room for a wrong value.
    assert_eq!(counted, PAIRS.len() - 1);
    let mut soft = vec![-127; 216];
    assert_decode(program, u64::MAX, 216, &soft, 40);
    assert_decode(program, 40, 217, &soft, 40);
    assert_decode(program, 40, 108, &soft, 40);
    assert_decode(program, 40, 216, &soft, 216);
    soft[215] = i32::MIN;
    assert_decode(program, 40, 216, &soft, 40);
    soft[33] = 128;
    assert_decode(program, 40, 216, &soft, 40);
}

fn assert_loopbacks(program: &Path, random: &mut Random) {
    for (a, e) in PAIRS {
        let (payload, strengths) = (random.bits(a as usize), strengths(e as usize, random));
        assert_loopback(program, a, e, (&payload, &strengths), a as usize);
    }
    let (mut payload, mut strengths) = (random.bits(40), vec![1; 216]);
    assert_loopback(program, 141, 216, (&payload, &strengths), 40);
    assert_loopback(program, 40, 215, (&payload, &strengths), 40);
    assert_loopback(program, 40, 108, (&payload, &strengths), 40);
    assert_loopback(program, 41, 216, (&payload, &strengths), 41);
    assert_loopback(program, 40, 216, (&payload, &strengths), 216);
    strengths[7] = 128;
    assert_loopback(program, 40, 216, (&payload, &strengths), 40);
    payload[39] = 2;
    assert_loopback(program, 40, 216, (&payload, &strengths), 40);
}

fn assert_describing(program: &Path) {
    for (a, e) in PAIRS.into_iter().chain([(24, 108), (71, 216)]) {
        assert_describe(program, a, e, 512);
    }
    assert_describe(program, u64::MAX, 216, 512);
    assert_describe(program, 40, 217, 512);
    assert_describe(program, 85, 108, 512);
    assert_describe(program, 40, 216, 511);
    assert_describe(program, 40, 216, 0);
}

/// The macros take their own bits of an answer, whatever stands beside them.
fn assert_parts(program: &Path) {
    let most = 0xFFFF;
    for number in [0, 6, 255] {
        for place in [0, 43, 256, most] {
            for noise in [0, 1, 256, 1728, most] {
                for behind in [0, 0xFF_FFFF] {
                    let answer: u64 = number | place << 8 | noise << 24 | behind << 40;
                    let said = printed(program, &["parts".into(), answer.to_string()]);
                    let expected = format!("{number} {place} {place} {noise}\n");
                    assert_eq!(said, expected, "{answer:#x}");
                }
            }
        }
    }
}

fn assert_language(compiler: &str, language: &[&str], name: &str) {
    let program = build(compiler, language, name);
    let numbers = printed(&program, &["numbers".into()]);
    assert_eq!(numbers, "0 1 2 3 4 5 6 7 8\n");
    let limits = printed(&program, &["limits".into()]);
    assert_eq!(limits, "108 64 44 140\n");
    let candidate = printed(&program, &["candidate".into()]);
    assert_eq!(candidate, "20: 0 4 8 12 16\n");
    let roles = printed(&program, &["roles".into()]);
    assert_eq!(roles, "0 1 2 3 4 512\n");
    let version = env!("CARGO_PKG_VERSION");
    let said = printed(&program, &["version".into()]);
    assert_eq!(said, format!("{version} {version}\n"));
    assert_parts(&program);
    let mut random = Random::new(SEED);
    assert_coding(&program, &mut random);
    assert_decoding(&program, &mut random);
    assert_loopbacks(&program, &mut random);
    assert_describing(&program);
    assert_searches(&program, &mut random);
}

#[test]
fn c_gets_the_same_bits() {
    assert_language("cc", &["-std=c99", "-x", "c"], "call_c");
}

#[test]
fn cpp_gets_the_same_bits() {
    assert_language("c++", &["-std=c++11", "-x", "c++"], "call_cpp");
}

/// The header alone and twice, and its macros.
const LONE: &str = "\
#include \"speltfeather.h\"
#include \"speltfeather.h\"
#if SPELT_VERSION_MAJOR < 0 || SPELT_VERSION_MINOR < 0 || SPELT_VERSION_PATCH < 0
#error no version
#endif
int number(uint64_t r);
int number(uint64_t r) { return SPELT_NUMBER(r); }
size_t place(uint64_t r);
size_t place(uint64_t r) { return SPELT_PLACE(r); }
size_t candidate(uint64_t r);
size_t candidate(uint64_t r) { return SPELT_CANDIDATE(r); }
size_t noise(uint64_t r);
size_t noise(uint64_t r) { return SPELT_NOISE(r); }
uint64_t search(const int32_t *region, size_t cces, const spelt_candidate *list,
                size_t count, uint8_t *out);
uint64_t search(const int32_t *region, size_t cces, const spelt_candidate *list,
                size_t count, uint8_t *out)
{
    return spelt_search(500, region, SPELT_CCE * cces, list, count, out,
                        SPELT_MAX_PAYLOAD);
}
";

/// A compiler's languages, its standards of each, and the names that it may have.
const LANGUAGES: [(&str, &[&str], [&str; 3]); 2] = [
    (
        "c",
        &["-std=c99", "-std=c11", "-std=c17"],
        ["cc", "gcc", "clang"],
    ),
    (
        "c++",
        &["-std=c++11", "-std=c++14", "-std=c++17", "-std=c++20"],
        ["c++", "g++", "clang++"],
    ),
];

/// Every standard of both languages must take a text without a warning.
fn assert_taken(name: &str, text: &str) {
    for (language, standards, compilers) in LANGUAGES {
        assert!(is_found(compilers[0]), "{}", compilers[0]);
        for compiler in compilers.into_iter().filter(|name| is_found(name)) {
            for standard in standards {
                let taken = is_taken(compiler, language, standard, text);
                assert!(taken, "{compiler} {standard} takes {name}");
            }
        }
    }
}

fn is_taken(compiler: &str, language: &str, standard: &str, text: &str) -> bool {
    // Casts in the manner of C are C++'s to warn of.
    let casts: &[&str] = match language {
        "c++" => &["-Wold-style-cast"],
        _ => &[],
    };
    let mut child = Command::new(compiler)
        .args(["-fsyntax-only", "-x", language, standard, "-pedantic"])
        .args(["-Wall", "-Wextra", "-Wconversion", "-Wsign-conversion"])
        .args(["-Wundef", "-Werror"])
        .args(casts)
        .arg("-I")
        .arg(include())
        .arg("-")
        .stdin(Stdio::piped())
        .spawn()
        .expect("a compiler");
    let mut input = child.stdin.take().expect("a pipe");
    input.write_all(text.as_bytes()).expect("a reader");
    drop(input);
    child.wait().expect("an end").success()
}

#[test]
fn every_standard_takes_the_header() {
    assert_taken("the header", LONE);
    // Older than the examples, which need C++11.
    assert!(is_taken("c++", "c++", "-std=c++98", LONE));
}

#[test]
fn every_standard_takes_the_examples() {
    let examples = fs::read_dir(root().join("examples/c")).expect("the examples");
    let examples: Vec<PathBuf> = examples
        .map(|entry| entry.expect("an entry").path())
        .collect();
    assert!(!examples.is_empty());
    for example in examples {
        let text = fs::read_to_string(&example).expect("an example");
        assert_taken(&example.display().to_string(), &text);
    }
    assert_taken("README's program", &program_of_readme());
}
