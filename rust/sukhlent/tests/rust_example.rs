//! The examples in Rust print what those in C or Python print, and the catalogue of orbits its stored
//! output.

#[path = "../examples/clusters.rs"]
#[allow(dead_code)]
mod clusters;
#[path = "../examples/cut.rs"]
#[allow(dead_code)]
mod cut;
#[path = "../examples/day.rs"]
#[allow(dead_code)]
mod day;
#[path = "../examples/equivalent.rs"]
#[allow(dead_code)]
mod equivalent;
#[path = "../examples/generate.rs"]
#[allow(dead_code)]
mod generate;
#[path = "../examples/orbits.rs"]
#[allow(dead_code)]
mod orbits;
#[path = "../examples/parity.rs"]
#[allow(dead_code)]
mod parity;
#[path = "../examples/recipes.rs"]
#[allow(dead_code)]
mod recipes;
#[path = "../examples/ring.rs"]
#[allow(dead_code)]
mod ring;
#[path = "../examples/run.rs"]
#[allow(dead_code)]
mod run;
#[path = "../examples/session.rs"]
#[allow(dead_code)]
mod session;
#[path = "../examples/source.rs"]
#[allow(dead_code)]
mod source;
#[path = "../examples/store.rs"]
#[allow(dead_code)]
mod store;
#[path = "../examples/strings.rs"]
#[allow(dead_code)]
mod strings;
#[path = "../examples/two_groups.rs"]
#[allow(dead_code)]
mod two_groups;
#[path = "../examples/vector.rs"]
#[allow(dead_code)]
mod vector;

#[test]
fn session_prints_what_the_session_in_c_prints() {
    let mut text = String::new();
    session::session(&mut text).unwrap();
    assert_eq!(text, include_str!("../../../examples/c/session.out"));
}

#[test]
fn parity_prints_what_parity_in_c_prints() {
    let mut text = String::new();
    parity::show(&mut text).unwrap();
    assert_eq!(text, include_str!("../../../examples/c/parity.out"));
}

#[test]
fn ring_prints_what_the_ring_in_c_prints() {
    let mut text = String::new();
    ring::show(&mut text).unwrap();
    assert_eq!(text, include_str!("../../../examples/c/ring.out"));
}

#[test]
fn source_prints_what_source_in_c_prints() {
    let mut text = String::new();
    source::source(1_000_001, &mut text).unwrap();
    assert_eq!(text, include_str!("../../../examples/c/source.out"));
}

#[test]
fn store_prints_what_store_in_c_prints() {
    let mut text = String::new();
    store::marked(&mut text).unwrap();
    assert_eq!(text, include_str!("../../../examples/c/store.out"));
}

#[test]
fn strings_prints_what_strings_in_c_prints() {
    let mut text = String::new();
    strings::show_all(&mut text).unwrap();
    assert_eq!(text, include_str!("../../../examples/c/strings.out"));
}

#[test]
fn two_groups_prints_what_two_groups_in_c_prints() {
    let mut text = String::new();
    two_groups::session(&mut text).unwrap();
    assert_eq!(text, include_str!("../../../examples/c/two_groups.out"));
}

#[test]
fn clusters_prints_what_clusters_in_c_prints() {
    let mut text = String::new();
    clusters::ghz_and_star(&mut text).unwrap();
    clusters::clusters(&mut text).unwrap();
    assert_eq!(text, include_str!("../../../examples/c/clusters.out"));
}

#[test]
fn cut_prints_what_cut_in_c_prints() {
    let mut text = String::new();
    cut::cuts(&mut text).unwrap();
    assert_eq!(text, include_str!("../../../examples/c/cut.out"));
}

#[test]
fn day_prints_what_day_in_python_prints() {
    let mut text = String::new();
    day::day(&mut text).unwrap();
    assert_eq!(text, include_str!("../../../examples/python/day.out"));
}

#[test]
fn equivalent_prints_what_equivalent_in_c_prints() {
    let mut text = String::new();
    equivalent::compared(&mut text).unwrap();
    assert_eq!(text, include_str!("../../../examples/c/equivalent.out"));
}

#[test]
fn recipes_prints_what_recipes_in_c_prints() {
    let mut text = String::new();
    recipes::recipes(&mut text).unwrap();
    assert_eq!(text, include_str!("../../../examples/c/recipes.out"));
}

#[test]
fn run_prints_what_run_in_c_prints() {
    let mut text = String::new();
    run::replay(&mut text).unwrap();
    assert_eq!(text, include_str!("../../../examples/c/run.out"));
}

#[test]
fn vector_prints_what_vector_in_c_prints() {
    let mut text = String::new();
    vector::vector(&mut text).unwrap();
    assert_eq!(text, include_str!("../../../examples/c/vector.out"));
}

#[test]
fn generate_writes_what_generate_in_c_writes_and_says_what_is_refused() {
    let text = |words: &[&str]| {
        let words: Vec<String> = words.iter().map(|word| word.to_string()).collect();
        generate::text(&words)
    };
    let due = include_str!("../../../examples/c/generate.out");
    assert_eq!(text(&["64", "12", "1"]).as_deref(), Ok(due));
    assert_eq!(text(&["65", "12", "1"]), Err((1, "refused 2".into())));
    assert_eq!(text(&["64", "one", "1"]), Err((2, "no number: one".into())));
    assert_eq!(text(&["64"]).unwrap_err().0, 2);
}

#[test]
fn orbits_prints_the_eleven_of_connected_graphs_on_six_vertices() {
    let mut text = String::new();
    orbits::catalogue(&mut text).unwrap();
    assert_eq!(text, include_str!("../examples/orbits.out"));
    let heads = text.lines().filter(|line| line.starts_with("// orbit "));
    let sizes = heads.map(|line| line.split(' ').nth(3).unwrap());
    let due = [
        "7", "17", "18", "38", "40", "39", "41", "82", "176", "372", "132",
    ];
    assert!(sizes.eq(due));
}
