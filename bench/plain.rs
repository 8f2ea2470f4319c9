//! The plain Rust that the library is measured beside: bool matrices, hash maps, its own reader. It shares nothing with the library.

use std::collections::HashMap;

pub const SOME: usize = 64;
pub const ROLE: usize = 128;
pub const NODES: usize = 192;
pub const NONE: u16 = 65535;

/// A rule by its kind and codes; the second code of a functional rule is 0.
pub type Rule = (u32, u32, u32);
/// A fact by predicate, subject and object.
pub type Fact = (u32, u32, u32);
type Matrix = Vec<Vec<bool>>;

#[derive(Clone)]
pub struct Site {
    pub concepts: u32,
    pub roles: u32,
    pub rules: Vec<Rule>,
}

/// What follows from rules: what is included, what is excluded, and the functional basic roles.
pub struct Follows {
    pub included: Matrix,
    pub excluded: Matrix,
    pub functional: [bool; 64],
}

pub fn read_numbers(bytes: &[u8]) -> Vec<u32> {
    let (mut numbers, mut value, mut shift) = (Vec::with_capacity(bytes.len()), 0, 0);
    for &byte in bytes {
        value |= u32::from(byte & 127) << shift;
        shift += 7;
        if byte < 128 {
            numbers.push(value);
            (value, shift) = (0, 0);
        }
    }
    numbers
}

pub fn read_site(bytes: &[u8]) -> Site {
    let numbers = read_numbers(bytes);
    let mut rest = numbers[3..].iter().copied();
    let mut rules = Vec::with_capacity(numbers[2] as usize);
    while let Some(kind) = rest.next() {
        let first = rest.next().unwrap();
        let second = if kind == 4 { 0 } else { rest.next().unwrap() };
        rules.push((kind, first, second));
    }
    Site { concepts: numbers[0], roles: numbers[1], rules }
}

pub fn read_facts(bytes: &[u8]) -> Vec<Fact> {
    let numbers = read_numbers(bytes);
    let mut rest = numbers[1..].iter().copied();
    let mut facts = Vec::with_capacity(numbers[0] as usize);
    while let Some(predicate) = rest.next() {
        let subject = rest.next().unwrap();
        let object = if predicate < 64 { 0 } else { rest.next().unwrap() };
        facts.push((predicate, subject, object));
    }
    facts
}

fn declared(site: &Site) -> Vec<usize> {
    let (concepts, ends) = (site.concepts as usize, 2 * site.roles as usize);
    (0..concepts).chain(SOME..SOME + ends).chain(ROLE..ROLE + ends).collect()
}

/// Row x takes row y in; true if it grows.
fn take_row(table: &mut Matrix, x: usize, y: usize) -> bool {
    let from = table[y].clone();
    let mut grows = false;
    for (to, from) in table[x].iter_mut().zip(from) {
        grows |= from & !*to;
        *to |= from;
    }
    grows
}

fn warshall(table: &mut Matrix, nodes: &[usize]) {
    for &k in nodes {
        let row = table[k].clone();
        for &i in nodes {
            if table[i][k] {
                for (to, from) in table[i].iter_mut().zip(&row) {
                    *to |= from;
                }
            }
        }
    }
}

fn included(site: &Site, nodes: &[usize]) -> Matrix {
    let mut table = vec![vec![false; NODES]; NODES];
    for &x in nodes {
        table[x][x] = true;
    }
    for &(kind, x, y) in &site.rules {
        let (x, y) = (x as usize, y as usize);
        match kind {
            0 => table[x][y] = true,
            2 => {
                table[ROLE + x][ROLE + y] = true;
                table[ROLE + (x ^ 1)][ROLE + (y ^ 1)] = true;
                table[SOME + x][SOME + y] = true;
                table[SOME + (x ^ 1)][SOME + (y ^ 1)] = true;
            }
            _ => {}
        }
    }
    warshall(&mut table, nodes);
    table
}

/// All of a role's nodes exclude themselves if one does; true if that is new.
fn empty_role(table: &mut Matrix, role: usize) -> bool {
    let mates = [SOME + 2 * role, SOME + 2 * role + 1, ROLE + 2 * role, ROLE + 2 * role + 1];
    let empty = mates.iter().filter(|&&x| table[x][x]).count();
    if empty == 0 || empty == 4 {
        return false;
    }
    mates.iter().for_each(|&x| table[x][x] = true);
    true
}

/// The steps as they are written, again and again until nothing is new.
fn excluded(site: &Site, nodes: &[usize], included: &Matrix) -> Matrix {
    let mut table = vec![vec![false; NODES]; NODES];
    for &(kind, x, y) in &site.rules {
        let (x, y) = (x as usize, y as usize);
        match kind {
            1 => table[x][y] = true,
            3 => {
                table[ROLE + x][ROLE + y] = true;
                table[ROLE + (x ^ 1)][ROLE + (y ^ 1)] = true;
            }
            _ => {}
        }
    }
    let mut grows = true;
    while grows {
        grows = false;
        for &x in nodes {
            for &y in nodes {
                if table[x][y] && !table[y][x] {
                    table[y][x] = true;
                    grows = true;
                }
            }
        }
        for &x in nodes {
            for &y in nodes {
                if x != y && included[x][y] {
                    grows |= take_row(&mut table, x, y);
                }
            }
        }
        for role in 0..site.roles as usize {
            grows |= empty_role(&mut table, role);
        }
    }
    table
}

pub fn follow(site: &Site) -> Follows {
    let nodes = declared(site);
    let included = included(site, &nodes);
    let excluded = excluded(site, &nodes, &included);
    let mut functional = [false; 64];
    site.rules.iter().filter(|rule| rule.0 == 4).for_each(|rule| functional[rule.1 as usize] = true);
    Follows { included, excluded, functional }
}

/// A node at an ordered pair of things.
pub type Type = (usize, (u32, u32));

/// The types of a fact: one of a concept's, four of a role's.
pub fn types(&(predicate, a, b): &Fact) -> ([Type; 4], usize) {
    if predicate < 64 {
        return ([(predicate as usize, (a, a)); 4], 1);
    }
    let q = 2 * (predicate as usize - 64);
    ([(SOME + q, (a, a)), (SOME + q + 1, (b, b)), (ROLE + q, (a, b)), (ROLE + q + 1, (b, a))], 4)
}

fn jar(follows: &Follows, f: &Fact, g: &Fact) -> bool {
    let ((ours, n), (theirs, m)) = (types(f), types(g));
    ours[..n].iter().any(|x| theirs[..m].iter().any(|y| x.1 == y.1 && follows.excluded[x.0][y.0]))
}

pub fn is_alone(follows: &Follows, f: &Fact) -> bool {
    jar(follows, f, f)
}

fn split(follows: &Follows, f: &Fact, g: &Fact) -> bool {
    if f.0 < 64 || f.0 != g.0 {
        return false;
    }
    let q = 2 * (f.0 as usize - 64);
    follows.functional[q] && f.1 == g.1 && f.2 != g.2 || follows.functional[q + 1] && f.2 == g.2 && f.1 != g.1
}

/// Whether two facts contradict each other; they clash if neither is alone.
pub fn clash(follows: &Follows, f: &Fact, g: &Fact) -> bool {
    meet(f, g) && (jar(follows, f, g) || split(follows, f, g))
}

/// Whether two facts may have a thing in common; others never clash.
fn meet(f: &Fact, g: &Fact) -> bool {
    f.1 == g.1 || f.1 == g.2 || f.2 == g.1 || f.2 == g.2
}

/// Marks and partners.
pub type Marks = (Vec<u8>, Vec<u16>);

fn alone_marks(follows: &Follows, facts: &[Fact]) -> Marks {
    (facts.iter().map(|f| u8::from(is_alone(follows, f))).collect(), vec![NONE; facts.len()])
}

fn settle(marks: &mut Marks, fact: usize, partner: u16) {
    if partner != NONE {
        marks.0[fact] = 2;
        marks.1[fact] = partner;
    }
}

/// Every pair of facts, without an index.
pub fn mark_pairs(rules: &[u8], bundle: &[u8]) -> Marks {
    let (follows, facts) = (follow(&read_site(rules)), read_facts(bundle));
    let mut marks = alone_marks(&follows, &facts);
    let alone: Vec<bool> = marks.0.iter().map(|&mark| mark == 1).collect();
    for (i, f) in facts.iter().enumerate().filter(|&(i, _)| !alone[i]) {
        let found = facts.iter().enumerate().find(|&(j, g)| !alone[j] && clash(&follows, f, g));
        settle(&mut marks, i, found.map_or(NONE, |(j, _)| j as u16));
    }
    marks
}

/// The nodes at each pair of things, each with the lowest fact that has it there;
/// and for each functional direction and thing the two lowest facts.
#[derive(Default)]
struct Index {
    places: HashMap<(u32, u32), Vec<(usize, u16)>>,
    joined: HashMap<(usize, u32), [u16; 2]>,
}

/// The functional directions of a fact: each with the thing that it may join once.
fn once<'a>(follows: &'a Follows, &(predicate, a, b): &Fact) -> impl Iterator<Item = (usize, u32)> + 'a {
    let q = if predicate < 64 { 64 } else { 2 * (predicate as usize - 64) };
    [(q, a), (q + 1, b)].into_iter().filter(|&(q, _)| q < 64 && follows.functional[q])
}

impl Index {
    fn add(&mut self, follows: &Follows, i: u16, f: &Fact) {
        let (all, n) = types(f);
        for &(node, place) in &all[..n] {
            let there = self.places.entry(place).or_default();
            if there.iter().all(|&(other, _)| other != node) {
                there.push((node, i));
            }
        }
        for key in once(follows, f) {
            let two = self.joined.entry(key).or_insert([i, NONE]);
            if two[0] != i && two[1] == NONE {
                two[1] = i;
            }
        }
    }

    fn partner(&self, follows: &Follows, i: u16, f: &Fact) -> u16 {
        let (all, n) = types(f);
        let jars = all[..n].iter().flat_map(|(node, place)| {
            let row = &follows.excluded[*node];
            self.places[place].iter().filter(|&&(other, _)| row[other]).map(|&(_, j)| j)
        });
        let splits = once(follows, f).map(|key| {
            let two = self.joined[&key];
            if two[0] == i {
                two[1]
            } else {
                two[0]
            }
        });
        jars.chain(splits).min().unwrap_or(NONE)
    }
}

/// With hash maps: each fact is looked up where it stands.
pub fn mark_hashed(rules: &[u8], bundle: &[u8]) -> Marks {
    let (follows, facts) = (follow(&read_site(rules)), read_facts(bundle));
    let mut marks = alone_marks(&follows, &facts);
    let mut index = Index::default();
    let rest: Vec<usize> = (0..facts.len()).filter(|&i| marks.0[i] == 0).collect();
    rest.iter().for_each(|&i| index.add(&follows, i as u16, &facts[i]));
    for i in rest {
        settle(&mut marks, i, index.partner(&follows, i as u16, &facts[i]));
    }
    marks
}
