//! Measures the library's text, compiled as plain Rust, beside plain implementations in one run, and prints the results as Markdown.
//! Every result is compared before it is timed; a difference ends the program.

mod archive;
mod clock;
mod make;
mod plain;
mod sql;

use make::{bundle_bytes, make_facts, make_site, rule_bytes, Things};
use plain::{follow, mark_hashed, mark_pairs, read_site, Marks, Site, NODES};
use std::hint::black_box;
use text::follows::Tables;
use text::rule::Head;
use text::rules::check_rules;

/// The seconds that one measurement lasts at least, how many there are of each action in a turn, and the turns.
const LONG: f64 = 0.002;
const MEASURED: u32 = 3;
const TURNS: u32 = 5;

/// The seconds of so many repetitions.
fn seconds(action: &dyn Fn(), repeated: u32) -> f64 {
    let start = clock::now();
    (0..repeated).for_each(|_| action());
    clock::now() - start
}

/// How often a short action is repeated, so that a measurement is long enough for the clock.
fn repetitions(action: &dyn Fn()) -> u32 {
    let mut repeated = 1;
    while seconds(action, repeated) < LONG {
        repeated *= 2;
    }
    repeated
}

/// The best time of each of some actions, taken in turns.
fn best<const N: usize>(actions: [&dyn Fn(); N]) -> [f64; N] {
    let mut best = [f64::MAX; N];
    let repeated = actions.map(repetitions);
    for _ in 0..TURNS {
        for (best, (action, repeated)) in best.iter_mut().zip(actions.into_iter().zip(repeated)) {
            for _ in 0..MEASURED {
                *best = best.min(seconds(action, repeated) / f64::from(repeated));
            }
        }
    }
    best
}

fn shown(seconds: f64) -> String {
    match seconds {
        s if s >= 0.1 => format!("{:.0} ms", s * 1e3),
        s if s >= 1e-3 => format!("{:.2} ms", s * 1e3),
        s => format!("{:.1} µs", s * 1e6),
    }
}

fn ratio(ours: f64, theirs: f64) -> String {
    let r = ours / theirs;
    if r >= 10.0 {
        format!("{r:.0}")
    } else {
        format!("{r:.2}")
    }
}

fn head_of(rules: &[u8]) -> Head {
    check_rules(rules).unwrap_or_else(|r| panic!("rules refused: {} at {}", u32::from(r.fault), r.place))
}

fn fill(rules: &[u8], head: Head) -> Tables {
    let mut t = Tables::empty();
    t.fill(rules, head);
    t
}

/// Both give the same relations; how many pairs each has.
fn same_tables(rules: &[u8]) -> (usize, usize) {
    let (ours, theirs) = (fill(rules, head_of(rules)), follow(&read_site(rules)));
    let (mut included, mut excluded) = (0, 0);
    for x in 0..NODES {
        for y in 0..NODES {
            assert_eq!(ours.included.get(x, y), theirs.included[x][y], "included {x} {y}");
            assert_eq!(ours.excluded.get(x, y), theirs.excluded[x][y], "excluded {x} {y}");
            included += usize::from(theirs.included[x][y]);
            excluded += usize::from(theirs.excluded[x][y]);
        }
    }
    (0..64).for_each(|q| assert_eq!(ours.functional >> q & 1 == 1, theirs.functional[q], "functional {q}"));
    (included, excluded)
}

fn table_line(name: &str, site: &Site) {
    let rules = rule_bytes(site);
    let (included, excluded) = same_tables(&rules);
    let head = head_of(&rules);
    let [ours, theirs] = best([&|| drop(black_box(fill(black_box(&rules), head))), &|| {
        drop(black_box(follow(&read_site(black_box(&rules)))))
    }]);
    let (r, ours, theirs) = (ratio(ours, theirs), shown(ours), shown(theirs));
    println!("| {name} | {included} | {excluded} | {ours} | {theirs} | {r} |");
}

fn measure_tables() {
    println!("## The tables of what follows\n");
    println!("`Tables::fill` beside bool matrices (Warshall, then the exclusions until nothing is new), both from the rule file's bytes.\n");
    println!("| concepts / roles / rules | pairs included | pairs excluded | text | plain | ratio |\n|---|---|---|---|---|---|");
    table_line("10 / 5 / 40, nothing empty", &make_site(1, 10, 5, 40, true));
    table_line("30 / 20 / 200, nothing empty", &make_site(2, 30, 20, 200, true));
    table_line("64 / 32 / 512, nothing empty", &make_site(3, 64, 32, 512, true));
    table_line("10 / 5 / 40, as they come", &make_site(4, 10, 5, 40, false));
    table_line("64 / 32 / 512, as they come", &make_site(5, 64, 32, 512, false));
}

fn mark_ours(rules: &[u8], bundle: &[u8], count: usize) -> Marks {
    let (mut marks, mut partners) = (vec![0; count], vec![0; count]);
    let counts = text::dzyunagor::dzy_mark(rules, bundle, &mut marks, &mut partners);
    assert_eq!((counts.refused.number, counts.facts as usize), (0, count), "the bundle is refused");
    (marks, partners)
}

/// A rule file and a bundle, with the count of facts and of those in conflicts.
struct Case {
    rules: Vec<u8>,
    bundle: Vec<u8>,
    count: usize,
    disputed: usize,
}

fn case(site: &Site, count: usize, percent: usize, hub: bool) -> Case {
    let things = Things { count: count as u32, hub };
    let facts = make_facts(count as u64 + percent as u64, site, count, count * percent / 100, &things);
    let mut case = Case { rules: rule_bytes(site), bundle: bundle_bytes(&facts), count, disputed: 0 };
    let ours = mark_ours(&case.rules, &case.bundle, count);
    assert!(ours == mark_hashed(&case.rules, &case.bundle), "marks by hash maps");
    assert!(ours == mark_pairs(&case.rules, &case.bundle), "marks by pairs");
    case.disputed = ours.0.iter().filter(|&&mark| mark > 0).count();
    case
}

/// The best times of the text, of every pair in plain Rust, and of hash maps.
fn times(c: &Case) -> [f64; 3] {
    best([
        &|| drop(black_box(mark_ours(black_box(&c.rules), black_box(&c.bundle), c.count))),
        &|| drop(black_box(mark_pairs(black_box(&c.rules), black_box(&c.bundle)))),
        &|| drop(black_box(mark_hashed(black_box(&c.rules), black_box(&c.bundle)))),
    ])
}

fn percent(c: &Case) -> String {
    format!("{:.1}%", 100.0 * c.disputed as f64 / c.count as f64)
}

fn mark_line(name: &str, c: &Case) {
    let [ours, pairs, hashed] = times(c);
    let (p, q) = (ratio(ours, pairs), ratio(ours, hashed));
    println!(
        "| {name} | {} | {} | {} | {} | {} | {p} | {q} |",
        c.count,
        percent(c),
        shown(ours),
        shown(pairs),
        shown(hashed)
    );
}

fn measure_marks(site: &Site) {
    println!("\n## Marking, in the shape of source document 004's experiment\n");
    println!("30 concepts, 20 roles, 200 rules. The whole call from bytes to marks and partners, tables included: the text beside plain Rust that looks at every pair of decoded facts, and beside plain Rust with hash maps (each fact looked up where it stands).\n");
    println!("| bundle | facts | in conflicts | text | pairs | hash maps | text / pairs | text / hash maps |\n|---|---|---|---|---|---|---|---|");
    for count in [1000, 3000, 4096] {
        for percent in [1, 5, 10] {
            mark_line("spread", &case(site, count, percent, false));
        }
    }
    for count in [1000, 4096] {
        mark_line("one hub in most facts", &case(site, count, 5, true));
    }
}

fn measure_growth(site: &Site) {
    println!("\n## How the time grows with the facts\n");
    println!("5% of the facts in conflicts. Each column: the time of this line over that of the line before.\n");
    println!("| facts | text | pairs | hash maps |\n|---|---|---|---|");
    let mut before: Option<[f64; 3]> = None;
    for count in [256, 512, 1024, 2048, 4096] {
        let now = times(&case(site, count, 5, false));
        let grown = |i: usize| before.map_or(shown(now[i]), |b| format!("{:.2} times", now[i] / b[i]));
        println!("| {count} | {} | {} | {} |", grown(0), grown(1), grown(2));
        before = Some(now);
    }
}

fn sql_line(name: &str, c: &Case) -> bool {
    let mut seconds = f64::MAX;
    for _ in 0..TURNS {
        let Some((took, marks)) = sql::clean(&c.rules, &c.bundle, c.count) else { return false };
        assert!(marks == mark_hashed(&c.rules, &c.bundle), "marks by SQL");
        seconds = seconds.min(took);
    }
    let [ours, _, hashed] = times(c);
    println!(
        "| {name} | {} | {} | {} | {} | {} |",
        c.count,
        shown(ours),
        shown(seconds),
        ratio(ours, seconds),
        ratio(hashed, seconds)
    );
    true
}

fn measure_sql(site: &Site) {
    println!("\n## The same cleaning as SQL in SQLite\n");
    println!("Tables of the facts' types and of the excluded pairs, with indexes, in memory; joins find the marks and the partners. Timed is the cleaning alone: the exclusions are handed over, and neither filling the tables nor reading the result counts. The text's time is the whole call.\n");
    println!("| bundle | facts | text | SQLite | text / SQLite | hash maps / SQLite |\n|---|---|---|---|---|---|");
    for (name, count, hub) in [
        ("spread", 1000, false),
        ("spread", 3000, false),
        ("spread", 4096, false),
        ("one hub in most facts", 4096, true),
    ] {
        if !sql_line(name, &case(site, count, 5, hub)) {
            println!("\nThe command sqlite3 was not there: not measured.");
            return;
        }
    }
}

/// The archive marks as the text does; it is timed where it runs as it is.
fn measure_archive(site: &Site) {
    println!("\n## The compiled archive\n");
    let Ok(words) = std::env::var("ARCHIVE") else {
        return println!("The archive was not there: not compared, not measured.");
    };
    let native = cfg!(target_arch = "x86_64");
    if native {
        println!("`dzy_mark` of the archive that `rt` makes, beside the text; the marks are the same.\n");
        println!("| bundle | facts | archive | text | archive / text |\n|---|---|---|---|---|");
    }
    for (name, count, hub) in [("spread", 1000, false), ("spread", 4096, false), ("one hub in most facts", 4096, true)]
    {
        let c = case(site, count, 5, hub);
        let (archive, marks) = archive::mark(&words, &c.rules, &c.bundle, if native { 20 } else { 1 });
        assert!(marks == mark_ours(&c.rules, &c.bundle, count), "marks by the archive");
        if native {
            let ours = times(&c)[0];
            println!("| {name} | {count} | {} | {} | {} |", shown(archive), shown(ours), ratio(archive, ours));
        }
    }
    if !native {
        println!("The archive that `rt` makes is for x86-64. On this processor it ran under an emulator, so it was not timed; it gave the same marks and partners as the text on the three bundles tried (1,000 and 4,096 facts, and 4,096 with a hub).");
    }
}

fn main() {
    measure_tables();
    let site = make_site(2, 30, 20, 200, true);
    measure_marks(&site);
    measure_growth(&site);
    measure_sql(&site);
    measure_archive(&site);
}
