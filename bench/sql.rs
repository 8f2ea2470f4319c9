//! The same cleaning as SQL, by SQLite's command line on a database in memory.

use crate::plain::{follow, read_facts, read_site, types, Marks, NODES, NONE};
use std::fmt::Write as _;
use std::io::Write as _;
use std::process::{Command, Stdio};

const TABLES: &str = "
create table types(fact int, node int, a int, b int);
create table excluded(x int, y int, primary key(x, y)) without rowid;
create table once(fact int, role int, a int);
";

const INDEXES: &str = "
create index place on types(a, b, node, fact);
create index fact on types(fact, a, b, node);
create index joined on once(role, a, fact);
";

const CLEAN: &str = "
create table alone as select distinct t.fact from types t cross join types u on u.fact = t.fact and u.a = t.a and u.b = t.b
  cross join excluded e on e.x = t.node and e.y = u.node;
create table rest as select * from types where fact not in (select fact from alone);
create index rest_place on rest(a, b, node, fact);
create table disputed as select f, min(g) g from (
  select t.fact f, u.fact g from rest t cross join excluded e on e.x = t.node
    cross join rest u on u.a = t.a and u.b = t.b and u.node = e.y
  union all select o.fact, p.fact from once o cross join once p on p.role = o.role and p.a = o.a and p.fact <> o.fact
    where o.fact not in (select fact from alone) and p.fact not in (select fact from alone)) group by f;
";

fn script(rules: &[u8], bundle: &[u8]) -> String {
    let (follows, facts) = (follow(&read_site(rules)), read_facts(bundle));
    let mut text = format!("begin;{TABLES}");
    for x in 0..NODES {
        for y in (0..NODES).filter(|&y| follows.excluded[x][y]) {
            writeln!(text, "insert into excluded values({x},{y});").unwrap();
        }
    }
    for (i, fact) in facts.iter().enumerate() {
        let (all, n) = types(fact);
        for (node, (a, b)) in &all[..n] {
            writeln!(text, "insert into types values({i},{node},{a},{b});").unwrap();
        }
        for (node, (a, _)) in all[..n].iter().filter(|t| t.0 >= 64 && t.0 < 128 && follows.functional[t.0 - 64]) {
            writeln!(text, "insert into once values({i},{node},{a});").unwrap();
        }
    }
    writeln!(text, "{INDEXES}commit;\nbegin;\n.timer on{CLEAN}.timer off\ncommit;").unwrap();
    text + "select 'alone', fact, 0 from alone;\nselect 'disputed', f, g from disputed;\n"
}

/// The seconds of processor time of the cleaning alone, once the tables are there, and its marks; nothing if there is no sqlite3.
pub fn clean(rules: &[u8], bundle: &[u8], count: usize) -> Option<(f64, Marks)> {
    let started =
        Command::new("sqlite3").args(["-list", ":memory:"]).stdin(Stdio::piped()).stdout(Stdio::piped()).spawn();
    let mut child = started.ok()?;
    let text = script(rules, bundle);
    let mut input = child.stdin.take()?;
    let writer = std::thread::spawn(move || input.write_all(text.as_bytes()).is_ok());
    let output = child.wait_with_output().ok()?;
    assert!(writer.join().unwrap() && output.status.success(), "sqlite3 failed");
    let (mut seconds, mut marks) = (0.0, (vec![0; count], vec![NONE; count]));
    for line in String::from_utf8(output.stdout).ok()?.lines() {
        if let Some(rest) = line.strip_prefix("Run Time: real ") {
            let words: Vec<&str> = rest.split(' ').collect();
            seconds += words[2].parse::<f64>().ok()? + words[4].parse::<f64>().ok()?;
            continue;
        }
        let words: Vec<&str> = line.split('|').collect();
        let fact: usize = words[1].parse().ok()?;
        marks.0[fact] = if words[0] == "alone" { 1 } else { 2 };
        if marks.0[fact] == 2 {
            marks.1[fact] = words[2].parse().ok()?;
        }
    }
    Some((seconds, marks))
}
