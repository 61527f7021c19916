//! An overflow stops the second implementation in the profile that is run, and
//! every profile that can be run asks for that.

use reference::block::one_sample;
use reference::numbers::Dyadic;
use reference::Settings;
use std::hint::black_box;
use std::panic::catch_unwind;
use std::path::Path;

const SETTINGS: Settings = Settings { p: 1, q: 1, n: 1, r: 0, l: 0, m: 0 };

/// One sample with this feed forward weight, which meets a stored sample of 2: gives F.
fn f_with(weight: i128) -> i128 {
    one_sample(&SETTINGS, 0, &[weight, 0], -100, &[2], &[0], 1).f
}

/// Operations of the second implementation with numbers that fit, or that do
/// not: products and sums of 128 bits, exponents of 32 bits.
const OPERATIONS: [fn(bool) -> i128; 5] = [
    |fits| f_with(black_box(if fits { 1 << 100 } else { 1 << 126 })),
    |fits| f_with(black_box(if fits { -(1 << 100) } else { i128::MIN })),
    |fits| Dyadic::new(0, black_box(if fits { 0 } else { i32::MAX })).scaled(1).cut(),
    |fits| Dyadic::new(3, black_box(if fits { 125 } else { 126 })).cut(),
    |fits| Dyadic::whole(1 << black_box(if fits { 125 } else { 126 })).plus(Dyadic::power(126)).cut(),
];

#[test]
fn an_overflow_stops() {
    for (place, operation) in OPERATIONS.into_iter().enumerate() {
        let stops = [true, false].map(|fits| catch_unwind(|| operation(fits)).is_err());
        assert_eq!(stops, [false, true], "operation {place}");
    }
}

/// The tables of a manifest: each heading with its lines.
fn tables(manifest: &str) -> Vec<(&str, Vec<&str>)> {
    let mut tables = vec![("", Vec::new())];
    for line in manifest.lines().map(str::trim) {
        match line.starts_with('[') {
            true => tables.push((line, Vec::new())),
            false => tables.last_mut().expect("a table").1.push(line),
        }
    }
    tables
}

/// What is wrong with the profiles of a workspace's manifest and of its other files.
fn wrong(workspace: &str, others: &[String]) -> Option<String> {
    let is_profile = |heading: &str| heading.trim_start_matches('[').trim_start().starts_with("profile");
    let profiles: Vec<_> = tables(workspace).into_iter().filter(|(heading, _)| is_profile(heading)).collect();
    let unchecked = profiles.iter().find(|(_, lines)| !lines.contains(&"overflow-checks = true"));
    let named = |name: &&str| !profiles.iter().any(|(heading, _)| heading == name);
    let missing = ["[profile.dev]", "[profile.release]"].into_iter().find(named);
    let elsewhere = others.iter().flat_map(|text| tables(text)).find(|(heading, _)| is_profile(heading));
    let headings = [unchecked.map(|table| table.0), missing, elsewhere.map(|table| table.0)];
    headings.into_iter().flatten().next().map(str::to_string)
}

fn manifest(folder: &Path) -> String {
    let path = folder.join("Cargo.toml");
    std::fs::read_to_string(&path).unwrap_or_else(|error| panic!("{}: {error}", path.display()))
}

/// A member's profiles are ignored, and a configuration's go before all others.
#[test]
fn every_profile_has_overflow_checks() {
    let root = Path::new(env!("CARGO_MANIFEST_DIR")).parent().expect("the workspace");
    let workspace = manifest(root);
    let (_, members) = workspace.split_once("members = [").expect("members");
    let (members, _) = members.split_once(']').expect("members");
    let names: Vec<&str> = members.split('"').skip(1).step_by(2).collect();
    assert!(names.contains(&"reference"));
    let mut others: Vec<String> = names.iter().map(|name| manifest(&root.join(name))).collect();
    others.push(std::fs::read_to_string(root.join(".cargo/config.toml")).unwrap_or_default());
    assert_eq!(wrong(&workspace, &others), None);
    let faults = [
        workspace.replace("overflow-checks = true", "overflow-checks = false"),
        workspace.replacen("overflow-checks = true", "", 1),
        workspace.replace("[profile.release]", "[profile.other]"),
        workspace.replace("[profile.dev]", "[profile.other]"),
        workspace.clone() + "\n[profile.fast]\ninherits = \"release\"\n",
        workspace.clone() + "\n[profile.release.package.reference]\nopt-level = 3\n",
    ];
    assert!(faults.iter().all(|fault| wrong(fault, &others).is_some()));
    others[0] += "\n[profile.release]\nopt-level = 3\n";
    assert!(wrong(&workspace, &others).is_some());
}
