#!/bin/sh
# Measures the calls of the stores of a situation, each store alone: queues, instances, links and timers. It writes a small program
# around them, proves and builds it by LLVM in a copy of the crates, runs it on work of three sizes, and prints what one call takes
# and with which exponent the time grows. It is no part of the merge gate.
#
# usage: bench/stores.sh [COPY]
#
# COPY is the folder of the copy, which is kept: a later run begins with what was proved there. Where none is named it is a new one,
# which is removed. GNU time is wanted, as /usr/bin/time. To prove all takes some ten minutes, to measure two.
set -eu
top=$(cd "$(dirname "$0")/.." && pwd)
if [ $# -gt 0 ]; then
    mkdir -p "$1"
    copy=$(cd "$1" && pwd)
    made=
else
    copy=$(mktemp -d)
    made=$copy
fi
trap 'rm -rf "$made"' EXIT
: >"$copy/crates.txt"
for name in estelle_lists estelle_tree module_tree queue_store link_ops delay_timers; do
    mkdir -p "$copy/crates/$name"
    for part in src specs proofs; do
        rm -rf "$copy/crates/$name/$part"
        [ ! -d "$top/crates/$name/$part" ] || cp -R "$top/crates/$name/$part" "$copy/crates/$name/$part"
    done
    grep "^$name:" "$top/crates.txt" >>"$copy/crates.txt"
done
echo 'stores_bench: module_tree queue_store link_ops delay_timers estelle_tree' >>"$copy/crates.txt"
bench=$copy/crates/stores_bench
rm -rf "$bench/src" "$bench/specs" "$bench/proofs"
mkdir -p "$bench/src" "$bench/specs" "$bench/proofs"
cp "$top/crates/store_tests/proofs/Callers.antt" "$bench/proofs/Callers.antt"

# ---- the program

cat >"$bench/src/main.rt" <<'END'
//! Calls of the stores, so many of each kind: `stores_bench KIND SIZE ROUNDS`. It prints a number that tells what was found.
#![tactic(auto)]

mod instances;
mod links;
mod queues;
mod timers;

use std::alloc::{AllocError, Global};
use std::{env, io};

fn number(words: &[String], at: usize) -> u64 {
    match words.get(at) {
        Some(word) => word.parse::<u64>().unwrap_or(0),
        None => 0,
    }
}

fn run(alloc: Global, kind: &str, size: u64, rounds: u64) -> Result<u64, AllocError> {
    match kind {
        "queues" => queues::through(alloc, size, rounds),
        "moves" => queues::moved(alloc, size, rounds),
        "drops" => queues::dropped(alloc, size, rounds),
        "drops-beside" => queues::dropped_beside(alloc, size, rounds),
        "placed" => instances::run(alloc, size, rounds, false, false),
        "found" => instances::run(alloc, size, rounds, true, false),
        "removed" => instances::run(alloc, size, rounds, true, true),
        "routes" => links::routes(alloc, size, rounds),
        "connections" => links::connections(alloc, size, rounds),
        "renewed" => timers::renewed(alloc, u32::try_from(size).unwrap_or(0), rounds),
        "dropped-timers" => timers::dropped(alloc, u32::try_from(size).unwrap_or(0), rounds),
        _ => Ok(0),
    }
}

fn main(rt: HostRuntime) -> io::Result<()> {
    let mut words = Vec::new(rt.alloc());
    for word in env::args(&rt)? {
        words.push(word)?;
    }
    let kind = match words.get(1) {
        Some(kind) => kind.as_str(),
        None => "",
    };
    let found = run(rt.alloc(), kind, number(&words, 2), number(&words, 3))?;
    println!(rt; "{found}")
}
END

cat >"$bench/src/queues.rt" <<'END'
//! Queues of single interaction points.

use estelle_tree::{IpAddr, Path};
use queue_store::Queues;
use std::alloc::{AllocError, Global};

fn path(alloc: Global, branch: u64, number: u64) -> Result<Path, AllocError> {
    Ok(Path::of(Vec::from_slice(alloc, &[branch, number])?))
}

fn points(alloc: Global, branch: u64, count: u64) -> Result<Vec<IpAddr>, AllocError> {
    let mut points = Vec::new(alloc);
    for number in 0..count {
        points.push(IpAddr {
            path: path(alloc, branch, number)?,
            ip: 1,
        })?;
    }
    Ok(points)
}

fn declare(queues: &mut Queues<u64>, point: IpAddr) -> Result<(), AllocError> {
    queues.reserve(0, 1)?;
    if !queues.declares(&point) {
        queues.declare(point, false);
    }
    Ok(())
}

fn declare_all(
    queues: &mut Queues<u64>,
    alloc: Global,
    branch: u64,
    count: u64,
) -> Result<(), AllocError> {
    for point in points(alloc, branch, count)? {
        declare(queues, point)?;
    }
    Ok(())
}

fn put(queues: &mut Queues<u64>, point: &IpAddr, item: u64) -> Result<(), AllocError> {
    queues.reserve(1, 0)?;
    if queues.declares(point) {
        queues.push(point, item);
    }
    Ok(())
}

fn take(queues: &mut Queues<u64>, point: &IpAddr) -> u64 {
    if !queues.declares(point) {
        return 0;
    }
    queues.take(point).unwrap_or(0)
}

fn put_all(queues: &mut Queues<u64>, points: &[IpAddr], item: u64) -> Result<(), AllocError> {
    for point in points {
        put(queues, point, item)?;
    }
    Ok(())
}

fn take_all(queues: &mut Queues<u64>, points: &[IpAddr]) -> u64 {
    let mut sum = 0u64;
    for point in points {
        sum = sum.wrapping_add(take(queues, point));
    }
    sum
}

/// So many items through each of so many queues: all are put, and then all are taken.
pub fn through(alloc: Global, size: u64, rounds: u64) -> Result<u64, AllocError> {
    let mut queues = Queues::none(alloc);
    declare_all(&mut queues, alloc, 1, size)?;
    let points = points(alloc, 1, size)?;
    for item in 0..rounds {
        put_all(&mut queues, &points, item)?;
    }
    let mut sum = 0u64;
    for round in 0..rounds {
        sum = sum.wrapping_add(take_all(&mut queues, &points));
    }
    Ok(sum)
}

fn move_all(queues: &mut Queues<u64>, from: &IpAddr, to: &IpAddr) {
    if from.ip == to.ip {
        return;
    }
    if !queues.declares(from) {
        return;
    }
    if !queues.declares(to) {
        return;
    }
    queues.move_all(from, to);
}

fn pair(alloc: Global) -> Result<(IpAddr, IpAddr), AllocError> {
    let first = IpAddr {
        path: path(alloc, 1, 1)?,
        ip: 1,
    };
    let second = IpAddr {
        path: path(alloc, 1, 1)?,
        ip: 2,
    };
    Ok((first, second))
}

fn put_many(queues: &mut Queues<u64>, point: &IpAddr, count: u64) -> Result<(), AllocError> {
    for item in 0..count {
        put(queues, point, item)?;
    }
    Ok(())
}

/// So many items go from one queue to another and back, so often.
pub fn moved(alloc: Global, size: u64, rounds: u64) -> Result<u64, AllocError> {
    let mut queues = Queues::none(alloc);
    let (first, second) = pair(alloc)?;
    let (one, two) = pair(alloc)?;
    declare(&mut queues, one)?;
    declare(&mut queues, two)?;
    put_many(&mut queues, &first, size)?;
    for round in 0..rounds {
        move_all(&mut queues, &first, &second);
        move_all(&mut queues, &second, &first);
    }
    Ok(queues.waiting(&first) as u64)
}

#[tactic(auto, using(crate::proofs::Callers::below_within))]
fn drop_below(alloc: Global, queues: &mut Queues<u64>, path: &Path) -> Result<u64, AllocError> {
    let mut dropped = Vec::with_capacity(alloc, queues.total())?;
    queues.drop_below(path, &mut dropped);
    Ok(dropped.len() as u64)
}

/// So many queues of one item each are made and dropped at once.
fn drop_once(queues: &mut Queues<u64>, alloc: Global, size: u64) -> Result<u64, AllocError> {
    declare_all(queues, alloc, 2, size)?;
    put_all(queues, &points(alloc, 2, size)?, 1)?;
    drop_below(alloc, queues, &Path::of(Vec::from_slice(alloc, &[2])?))
}

pub fn dropped(alloc: Global, size: u64, rounds: u64) -> Result<u64, AllocError> {
    let mut queues = Queues::none(alloc);
    let mut count = 0u64;
    for round in 0..rounds {
        count = count.wrapping_add(drop_once(&mut queues, alloc, size)?);
    }
    Ok(count)
}

/// One queue of one item is made and dropped, so often, beside so many others.
pub fn dropped_beside(alloc: Global, size: u64, rounds: u64) -> Result<u64, AllocError> {
    let mut queues = Queues::none(alloc);
    declare_all(&mut queues, alloc, 1, size)?;
    let mut count = 0u64;
    for round in 0..rounds {
        count = count.wrapping_add(drop_once(&mut queues, alloc, 1)?);
    }
    Ok(count)
}
END

cat >"$bench/src/instances.rt" <<'END'
//! Instances of which each branch below the root has 99 children.

use estelle_tree::Path;
use module_tree::Tree;
use std::alloc::{AllocError, Global};

/// The next child of an instance.
#[tactic(auto, using(crate::proofs::Callers::next_number))]
fn place(alloc: Global, tree: &mut Tree<u64>, parent: &Path, part: u64) -> Result<(), AllocError> {
    tree.reserve(1)?;
    let number = match tree.births(parent) {
        None => return Ok(()),
        Some(births) => births,
    };
    if number == u64::MAX {
        return Ok(());
    }
    let child = parent.child(alloc, number + 1)?;
    let _ = tree.place(child, part);
    Ok(())
}

fn place_some(
    alloc: Global,
    tree: &mut Tree<u64>,
    parent: &Path,
    count: u64,
) -> Result<(), AllocError> {
    for part in 0..count {
        place(alloc, tree, parent, 1)?;
    }
    Ok(())
}

fn children(alloc: Global, tree: &Tree<u64>, path: &Path) -> Result<Vec<Path>, AllocError> {
    match tree.children(alloc, path) {
        Ok(paths) => Ok(paths),
        Err(_) => Err(AllocError),
    }
}

fn place_all(alloc: Global, tree: &mut Tree<u64>, branches: u64) -> Result<(), AllocError> {
    let root = Path::root(alloc);
    place_some(alloc, tree, &root, branches)?;
    for branch in &children(alloc, tree, &root)? {
        place_some(alloc, tree, branch, 99)?;
    }
    Ok(())
}

/// The sum of what is kept of an instance and of its children.
fn sum_of(alloc: Global, tree: &Tree<u64>, branch: &Path) -> Result<u64, AllocError> {
    let mut sum = tree.get(branch).copied().unwrap_or(0);
    for leaf in &children(alloc, tree, branch)? {
        sum = sum.wrapping_add(tree.get(leaf).copied().unwrap_or(0));
    }
    Ok(sum)
}

fn find_all(alloc: Global, tree: &Tree<u64>) -> Result<u64, AllocError> {
    let mut sum = 0u64;
    for branch in &children(alloc, tree, &Path::root(alloc))? {
        sum = sum.wrapping_add(sum_of(alloc, tree, branch)?);
    }
    Ok(sum)
}

fn remove(tree: &mut Tree<u64>, path: &Path) {
    if !path.items().is_empty() {
        let _ = tree.remove(path);
    }
}

fn remove_all(alloc: Global, tree: &mut Tree<u64>) -> Result<(), AllocError> {
    for branch in &children(alloc, tree, &Path::root(alloc))? {
        remove(tree, branch);
    }
    Ok(())
}

fn round(
    alloc: Global,
    tree: &mut Tree<u64>,
    branches: u64,
    is_found: bool,
    is_removed: bool,
) -> Result<u64, AllocError> {
    place_all(alloc, tree, branches)?;
    let sum = if is_found { find_all(alloc, tree)? } else { 0 };
    if is_removed {
        remove_all(alloc, tree)?;
    }
    Ok(sum)
}

fn planted(alloc: Global) -> Result<Tree<u64>, AllocError> {
    match Tree::single(alloc, 1) {
        Ok(tree) => Ok(tree),
        Err(_) => Err(AllocError),
    }
}

/// So many instances are placed, found and removed, so often.
pub fn run(
    alloc: Global,
    size: u64,
    rounds: u64,
    is_found: bool,
    is_removed: bool,
) -> Result<u64, AllocError> {
    let mut sum = 0u64;
    let mut kept = planted(alloc)?;
    for one in 0..rounds {
        if !is_removed {
            kept = planted(alloc)?;
        }
        sum = sum.wrapping_add(round(alloc, &mut kept, size / 100, is_found, is_removed)?);
    }
    Ok(sum)
}
END

cat >"$bench/src/links.rt" <<'END'
//! Connections, and attachments one below the other.

use estelle_tree::{IpAddr, Path};
use link_ops::Links;
use std::alloc::{AllocError, Global};

fn point(alloc: Global, branch: u64, number: u64, ip: u32) -> Result<IpAddr, AllocError> {
    Ok(IpAddr {
        path: Path::of(Vec::from_slice(alloc, &[branch, number])?),
        ip,
    })
}

fn copy(alloc: Global, point: &IpAddr) -> Result<IpAddr, AllocError> {
    Ok(IpAddr {
        path: point.path.copy(alloc)?,
        ip: point.ip,
    })
}

/// Attaches a point of an instance to one of its first child, which is handed back.
#[tactic(auto, using(crate::proofs::Callers::goes_to_child))]
fn attach(alloc: Global, links: &mut Links, upper: IpAddr) -> Result<IpAddr, AllocError> {
    links.reserve(1)?;
    let lower = IpAddr {
        path: upper.path.child(alloc, 1)?,
        ip: 1,
    };
    let next = copy(alloc, &lower)?;
    let _ = links.attach(upper, lower);
    Ok(next)
}

/// Connects two points that have different numbers.
fn connect(links: &mut Links, a: IpAddr, b: IpAddr) -> Result<(), AllocError> {
    links.reserve(1)?;
    if a.ip == b.ip {
        return Ok(());
    }
    let _ = links.connect(a, b);
    Ok(())
}

fn chain(alloc: Global, links: &mut Links, from: IpAddr, depth: u64) -> Result<IpAddr, AllocError> {
    let mut at = from;
    for step in 0..depth {
        at = attach(alloc, links, at)?;
    }
    Ok(at)
}

/// Copies of two points, in turn.
fn in_turn(
    alloc: Global,
    first: &IpAddr,
    second: &IpAddr,
    pairs: u64,
) -> Result<Vec<IpAddr>, AllocError> {
    let mut points = Vec::new(alloc);
    for pair in 0..pairs {
        points.push(copy(alloc, first)?)?;
        points.push(copy(alloc, second)?)?;
    }
    Ok(points)
}

/// Whether an output of the point at this place comes to another one.
fn comes(links: &Links, points: &[IpAddr], at: usize) -> bool {
    match points.get(at) {
        Some(point) => links.route(point).is_some(),
        None => false,
    }
}

/// How many of so many outputs come to another point. Each round has another point than the one before, so that
/// none can be left out.
fn count_routes(links: &Links, points: &[IpAddr], rounds: u64) -> u64 {
    let mut came = 0u64;
    let mut at = 0;
    for round in 0..rounds {
        if comes(links, points, at) {
            came = came.wrapping_add(1);
        }
        at = at.wrapping_add(1);
        if at >= points.len() {
            at = 0;
        }
    }
    came
}

/// So many outputs over so many attachments, down and up in turn: how many came.
pub fn routes(alloc: Global, size: u64, rounds: u64) -> Result<u64, AllocError> {
    let mut links = Links::none(alloc);
    let sender = point(alloc, 1, 1, 2)?;
    connect(&mut links, point(alloc, 1, 1, 2)?, point(alloc, 2, 2, 1)?)?;
    let last = chain(alloc, &mut links, point(alloc, 2, 2, 1)?, size)?;
    let points = in_turn(alloc, &sender, &last, 4)?;
    Ok(count_routes(&links, &points, rounds))
}

fn connect_all(alloc: Global, links: &mut Links, size: u64) -> Result<(), AllocError> {
    for number in 0..size {
        connect(
            links,
            point(alloc, 1, number, 1)?,
            point(alloc, 2, number, 2)?,
        )?;
    }
    Ok(())
}

fn senders(alloc: Global, size: u64) -> Result<Vec<IpAddr>, AllocError> {
    let mut senders = Vec::new(alloc);
    for number in 0..size {
        senders.push(point(alloc, 1, number, 1)?)?;
    }
    Ok(senders)
}

fn route_all(links: &Links, senders: &[IpAddr]) -> u64 {
    let mut came = 0u64;
    for sender in senders {
        if links.route(sender).is_some() {
            came = came.wrapping_add(1);
        }
    }
    came
}

fn disconnect_all(links: &mut Links, senders: &[IpAddr]) {
    for sender in senders {
        let _ = links.disconnect(sender);
    }
}

/// So many connections are made, used by an output each, and removed, so often.
pub fn connections(alloc: Global, size: u64, rounds: u64) -> Result<u64, AllocError> {
    let mut links = Links::none(alloc);
    let senders = senders(alloc, size)?;
    let mut came = 0u64;
    for round in 0..rounds {
        connect_all(alloc, &mut links, size)?;
        came = came.wrapping_add(route_all(&links, &senders));
        disconnect_all(&mut links, &senders);
    }
    Ok(came)
}
END

cat >"$bench/src/timers.rt" <<'END'
//! Timers of the instances of one system.

ghost use Rattle.std.specs.Prelude.{◌≡◌, ◌+◌, IfOk, OnOk};
ghost use Rattle.delay_timers.specs.Moments.{AreDifferent};
ghost use Rattle.stores_bench.specs.Wants.{AreBelow};

use delay_timers::Timers;
use estelle_tree::{Path, Wanted};
use std::alloc::{AllocError, Global};

/// A transition of one of the instances, ten of which are one's.
fn want(alloc: Global, trans: u32) -> Result<Wanted, AllocError>
    ensures { IfOk result (λ w. w.trans ≡ trans) }
{
    Ok(Wanted {
        path: Path::of(Vec::from_slice(alloc, &[1, u64::from(trans / 10)])?),
        trans,
        low: trans,
        high: None,
    })
}

/// One more transition, whose number is greater than those before.
#[tactic(auto, using(crate::proofs::Wants::one_more, crate::proofs::Wants::all_below))]
fn add(wants: &mut Vec<Wanted>, want: Wanted) -> Result<(), AllocError>
    requires different { AreDifferent wants.old.items }
    requires below { AreBelow want.trans wants.old.items }
    ensures different { OnOk result (AreDifferent wants.new.items) }
    ensures below { OnOk result (AreBelow (want.trans + 1) wants.new.items) }
{
    wants.push(want)?;
    Ok(())
}

#[tactic(auto, using(crate::proofs::Wants::no_two))]
fn wants(alloc: Global, count: u32) -> Result<Vec<Wanted>, AllocError>
    ensures { IfOk result (λ wants. AreDifferent wants.items) }
{
    let mut wants = Vec::new(alloc);
    for trans in 0..count {
        add(&mut wants, want(alloc, trans)?)?;
    }
    Ok(wants)
}

fn system(alloc: Global) -> Result<Path, AllocError> {
    Ok(Path::of(Vec::from_slice(alloc, &[1])?))
}

/// So many timers are renewed so often, and run on.
pub fn renewed(alloc: Global, size: u32, rounds: u64) -> Result<u64, AllocError> {
    let system = system(alloc)?;
    let wants = wants(alloc, size)?;
    let mut timers = Timers::none(alloc);
    for now in 0..rounds {
        timers.renew(alloc, &system, now, &wants)?;
    }
    Ok(timers.next_due().unwrap_or(1000))
}

/// Each timer is dropped, and the next moment that is due is asked for.
fn drop_all(timers: &mut Timers, wants: &[Wanted]) -> u64 {
    let mut sum = 0u64;
    for want in wants {
        sum = sum.wrapping_add(timers.next_due().unwrap_or(0));
        timers.drop_one(&want.path, want.trans);
    }
    sum
}

/// So many timers are started by one renewal and dropped one after another, so often.
pub fn dropped(alloc: Global, size: u32, rounds: u64) -> Result<u64, AllocError> {
    let system = system(alloc)?;
    let wants = wants(alloc, size)?;
    let mut timers = Timers::none(alloc);
    let mut sum = 0u64;
    for now in 0..rounds {
        timers.renew(alloc, &system, 0, &wants)?;
        sum = sum.wrapping_add(drop_all(&mut timers, &wants));
    }
    Ok(sum)
}
END

cat >"$bench/specs/Lib.antt" <<'END'
pub mod Wants
END

cat >"$bench/specs/Wants.antt" <<'END'
-- Transitions in a list, by their numbers.
use Rattle.std.specs.Prelude.{ℕ, ◌<◌, List}
use Rattle.std.specs.List.{AllByRecursion}
use Rattle.estelle_tree.specs.declared.transition.Wanted.{Wanted}

-- each number is less
abbrev pub AreBelow : ℕ → List Wanted → Type 0
AreBelow n = AllByRecursion (λ w. w.trans < n)
END

cat >"$bench/proofs/Lib.antt" <<'END'
pub mod Callers
pub mod Wants
END

cat >"$bench/proofs/Wants.antt" <<'END'
-- Lists in which each transition has a greater number than those before it.
use Rattle.std.proofs.Common.{◌≡◌, ℕ, ◌<◌, ◌+◌, Bool, true, false, List, [], ◌∷◌, ◌++◌, map as each, refl, ap, arith}
use Rattle.std.specs.Ordering.{eq_by_cmp}
use Rattle.std.specs.List.{AllByRecursion, IsDistinct}
use Rattle.std.proofs.lemmas.Map.Keys.{IsDistinct-cons, IsDistinct-head, IsDistinct-tail}
use Rattle.estelle_tree.specs.declared.transition.Pair.{Pair}
use Rattle.estelle_tree.specs.declared.transition.Wanted.{Wanted}
use Rattle.estelle_tree.specs.Timers.{pair_cmp}
use Rattle.delay_timers.specs.Moments.{pair_of, AreDifferent}
use Rattle.delay_timers.proofs.Orders.{same_pair}
use Rattle.stores_bench.specs.Wants.{AreBelow}

pub no_two : AreDifferent []
unfolding IsDistinct
no_two = tt

apart : (v w : Wanted) → v.trans < w.trans → (b : Bool) → eq_by_cmp pair_cmp (pair_of v) (pair_of w) ≡ b → b ≡ false
apart v w less true e = let s = ap (λ (p : Pair). p.trans) (same_pair (pair_of v) (pair_of w) e) in absurd (omega arith)
apart v w less false e = refl

later : (v w : Wanted) (ws : List Wanted) → v.trans < w.trans → AllByRecursion (λ y. eq_by_cmp pair_cmp (pair_of v) y ≡ false) (each pair_of ws)
    → AllByRecursion (λ y. eq_by_cmp pair_cmp (pair_of v) y ≡ false) (each pair_of (ws ++ w ∷ []))
later v w [] less all = (apart v w less _ refl, tt)
later v w (u ∷ ws) less all = (all.0, later v w ws less all.1)

pub one_more : (w : Wanted) (ws : List Wanted) → AreDifferent ws → AreBelow w.trans ws → AreDifferent (ws ++ w ∷ [])
one_more w [] different below = IsDistinct-cons (eq_by_cmp pair_cmp) (pair_of w) [] tt no_two
one_more w (v ∷ ws) different below =
    IsDistinct-cons (eq_by_cmp pair_cmp) (pair_of v) (each pair_of (ws ++ w ∷ [])) (later v w ws below.0 (IsDistinct-head (eq_by_cmp pair_cmp) (pair_of v) (each pair_of ws) different))
    (one_more w ws (IsDistinct-tail (eq_by_cmp pair_cmp) (pair_of v) (each pair_of ws) different) below.1)

pub all_below : (w : Wanted) (ws : List Wanted) → AreBelow w.trans ws → AreBelow (w.trans + 1) (ws ++ w ∷ [])
all_below w [] below = (omega arith, tt)
all_below w (v ∷ ws) below = let b = below.0 in (omega arith, all_below w ws below.1)
END

mkdir -p "$bench/proofs/timers/wants"
cat >"$bench/proofs/timers/wants/Invariants.antt" <<'END'
use Rattle.delay_timers.specs.Moments.{AreDifferent}
use Rattle.stores_bench.specs.Wants.{AreBelow}
use Rattle.stores_bench.proofs.timers.wants.Given as goal

abbrev pub invariant-loop-trans : goal.invariant-loop-trans
invariant-loop-trans l = record { different : AreDifferent l.wants.items; below : AreBelow l.trans l.wants.items }
END

# ---- it is proved and built

if ! (cd "$bench" && rt run -- none >"$copy/build.log" 2>&1); then
    tail -n 20 "$copy/build.log" >&2
    exit 1
fi
set -- "$bench/out/stores_bench"
# shellcheck source=bench/measure.sh
. "$top/bench/measure.sh"
trap 'rm -rf "$made" "$folder"' EXIT

# ---- and measured

# A kind, a size and how often: what is to be printed, what is done in all, what one of it is called, and the line's name. What is
# noted for the growth is the time of one round.
calls() {
    : >"$folder/input"
    run_times 1 "$1" "$2" "$3"
    [ "$(cat "$folder/out")" = "$4" ] || wrong "$1 $2 $3 (wanted $4)"
    row "$7" "$2" "$5" "$6"
    seconds=$(awk "BEGIN { printf \"%.9f\", $seconds / $8 }")
    note "$2"
}

for rounds in 1000 3000 10000; do
    calls queues 1000 "$rounds" $((1000 * rounds * (rounds - 1) / 2)) $((1000 * rounds)) item "1,000 queues, $rounds items through each" 1
done
series=$(printf '%s\n' "$series" | awk '{ printf " 1000 %s 3000 %s 10000 %s", $2, $4, $6 }')
growth 'items through 1,000 queues, by items'
for queues in 100 1000 10000 100000; do
    rounds=$((5000000 / queues))
    calls queues "$queues" "$rounds" $((queues * rounds * (rounds - 1) / 2)) 5000000 item "queues, $rounds items through each" "$rounds"
done
growth 'items through so many queues'
for size in 10000 100000 1000000; do
    rounds=$((10000000 / size))
    calls moves "$size" "$rounds" "$size" 20000000 item 'items to another queue and back, in one call each' "$rounds"
done
growth 'items moved'
for size in 1000 10000 100000; do
    calls drops "$size" $((1000000 / size)) 1000000 1000000 queue 'queues declared, filled and dropped at once' $((1000000 / size))
done
growth 'queues dropped at once'
for size in 1000 10000 100000; do
    rounds=$((20000000 / size))
    calls drops-beside "$size" "$rounds" "$rounds" "$rounds" queue 'one queue so, beside so many others' "$rounds"
done
growth 'a queue dropped beside others, which are all looked at'

for kind in placed found removed; do
    case $kind in
    placed) name='instances placed' ;;
    found) name='instances placed and found' ;;
    *) name='instances placed, found and removed' ;;
    esac
    for size in 1000 10000 100000; do
        sum=1000000
        [ "$kind" != placed ] || sum=0
        calls "$kind" "$size" $((1000000 / size)) "$sum" 1000000 instance "$name" $((1000000 / size))
    done
    growth "$name"
done

for depth in 1 10 100; do
    rounds=$((10000000 / depth))
    calls routes "$depth" "$rounds" "$rounds" "$rounds" route 'a route over attachments, down and up' "$rounds"
done
growth 'a route'
for size in 1000 10000 100000; do
    calls connections "$size" $((1000000 / size)) 1000000 1000000 link 'connections made, used by a route, removed' $((1000000 / size))
done
growth 'connections'

for size in 1000 10000 100000; do
    calls renewed "$size" $((1000000 / size)) 0 1000000 timer 'timers renewed, which run on' $((1000000 / size))
done
growth 'a renewal'
for size in 1000 10000 100000; do
    rounds=$((1000000 / size))
    calls dropped-timers "$size" "$rounds" $((rounds * (size * (size - 1) / 2))) 1000000 timer 'timers started, asked for as the next, dropped' "$rounds"
done
growth 'timers started and dropped'
exit "$failed"
