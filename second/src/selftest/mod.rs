//! The self test: document 01's bench numbers and whole case, numbers from
//! outside it, the clock, flushes, questions, what is told of bad trees, two
//! traces compared, round trips, and the refusals no trace can reach.

mod clock;
mod flush;
mod growth;
mod pairs;
mod question;
mod shares;
mod trees;

use std::fmt::Debug;
use std::io::{self, Write};

use crate::engine::clock::{MAX_ELAPSED, MAX_PERIOD, MAX_VIRTUAL_TIME};
use crate::engine::controller::{Answer, Controller};
use crate::engine::cost::{Bio, Model, Rates, Side, FORCED, MAX_BYTES, WRITE};
use crate::engine::leaf::relative_cost;
use crate::engine::numbers::{ceil, floor, members, Absolute, Relative, WHOLE};
use crate::engine::refusal::{Fault, Refusal};
use crate::engine::rules::{Mutant, Rules};
use crate::engine::tree::Tree;
use crate::generator::generate::generate;
use crate::generator::setup::{BENCH, LINUX, PAPER};
use crate::generator::style::Style;
use crate::observation::ledger::audit;
use crate::text::assemble::assemble_whole;
use crate::text::list::list;
use crate::trace::record::{decode, encode, Record, LAST, LONGEST};
use crate::trace::replay::{replay, Outcome, Replay};
use crate::trace::stream::Reader;

/// Counts what held and keeps a line for what did not.
struct Checks {
    passed: u64,
    failures: Vec<String>,
}

impl Checks {
    fn equal<T: PartialEq + Debug>(&mut self, name: &str, got: T, wanted: T) {
        if got == wanted {
            self.passed += 1;
        } else {
            self.failures
                .push(format!("{}: got {:?}, wanted {:?}", name, got, wanted));
        }
    }
}

/// Fewer checks are no test: a loop over nothing is no success.
const LEAST: u64 = 11_838;

/// A group of checks; a refusal ends it where none belongs.
type Group = fn(&mut Checks) -> Result<(), Refusal>;

const GROUPS: &[(&str, Group)] = &[
    ("roundings", roundings),
    ("bench costs", bench_costs),
    ("bench shares", bench_shares),
    ("bench budget", bench_budget),
    ("bench plans", bench_plans),
    ("costs from outside", outside_costs),
    ("presets of Linux", linux_prices),
    ("shares from outside", outside_shares),
    ("shares in one pass", shares::passes),
    ("thin trees", shares::thin_trees),
    ("noticed shares", shares::noticed),
    ("virtual time limit", virtual_time_limit),
    ("order of refusals at a tick", tick_refusal_order),
    ("release buffer", release_buffer),
    ("growths", clock::growths),
    ("split times", clock::split_times),
    ("calls between ticks", clock::calls_between),
    ("refused ticks", clock::refused_ticks),
    ("limits of the clock", clock::limits),
    ("costs of flushes", flush::costs),
    ("ranges of flushes", flush::ranges),
    ("answers to flushes", flush::answers),
    ("refusals of flushes", flush::refusals),
    ("laws of flushes", flush::laws),
    ("noticed flushes", flush::noticed),
    ("questions about budgets", question::budgets),
    ("questions about prices", question::prices),
    ("questions to refuse", question::refusals),
    ("counts of nodes", trees::counts),
    ("one bad node", trees::single_faults),
    ("two bad nodes", trees::faults_of_two),
    ("sound trees", trees::sound_trees),
    ("order of refusals of a tree", trees::tree_refusal_order),
    ("nodes one by one", trees::added_nodes),
    ("bad new weights", trees::bad_new_weights),
    ("generated trees", trees::generated_trees),
    ("noticed trees", trees::noticed_trees),
    ("refused weights", refused_weights),
    ("accepted weights", accepted_weights),
    ("savings at a weight", savings_at_weight),
    ("record buffer", record_buffer),
    ("places", places),
    ("texts", text_refusals),
];

/// Runs all checks; the answer is whether none failed.
pub fn run(out: &mut impl Write) -> io::Result<bool> {
    let mut checks = Checks {
        passed: 0,
        failures: Vec::new(),
    };
    for (name, group) in GROUPS {
        let went_through = group(&mut checks);
        checks.equal(name, went_through, Ok(()));
    }
    whole_case(&mut checks)?;
    for style in Style::ALL {
        for seed in 0..20 {
            generated_trace(&mut checks, seed, *style)?;
        }
    }
    growth::traces(&mut checks)?;
    shares::generated(&mut checks)?;
    question::in_states(&mut checks)?;
    question::noticed(&mut checks)?;
    question::lines(&mut checks)?;
    question::not_followed(&mut checks)?;
    pairs::examples(&mut checks)?;
    pairs::laws(&mut checks)?;
    pairs::changed_meanwhile(&mut checks);
    noticed_faults(&mut checks)?;
    let made = checks.passed + checks.failures.len() as u64;
    if made < LEAST {
        let said = format!("{} checks were made, and at least {} are due", made, LEAST);
        checks.failures.push(said);
    }
    for failure in &checks.failures {
        writeln!(out, "failed {}", failure)?;
    }
    let failed = checks.failures.len();
    writeln!(out, "{} passed, {} failed", checks.passed, failed)?;
    Ok(failed == 0)
}

/// Products just within 64 bits and just past them are divided alike.
fn roundings(checks: &mut Checks) -> Result<(), Refusal> {
    let half = 1 << 32;
    for (a, b, c, down, up) in [
        (7, 1, 7, 1, 1),
        (7, 1, 2, 3, 4),
        (0, 5, 3, 0, 0),
        (u64::MAX, 1, 1, u64::MAX, u64::MAX),
        (u64::MAX, 1, 2, (1 << 63) - 1, 1 << 63),
        (half - 1, half + 1, half, half - 1, half),
        (half, half, half, half, half),
        (half, half + 1, half, half + 1, half + 1),
        (half + 1, half + 1, half, half + 2, half + 3),
        (u64::MAX, u64::MAX, u64::MAX, u64::MAX, u64::MAX),
    ] {
        let name = format!("{} x {} / {}", a, b, c);
        checks.equal(&name, (floor(a, b, c), ceil(a, b, c)), (down, up));
    }
    Ok(())
}

fn tree_of(nodes: &[(u8, u16)]) -> Result<Tree, Refusal> {
    let mut tree = Tree::new();
    for &(parent, weight) in nodes {
        tree.add(parent, weight, Rules::TRUE)?;
    }
    Ok(tree)
}

/// Shares of all leaves, all of them active.
fn shares_of(nodes: &[(u8, u16)]) -> Result<Vec<u64>, Refusal> {
    let tree = tree_of(nodes)?;
    tree.check(Rules::TRUE)?;
    let shares = tree.base_shares(tree.leaves(), Rules::TRUE);
    Ok(members(tree.leaves()).map(|leaf| shares[leaf]).collect())
}

fn flat(weights: &[u16]) -> Vec<(u8, u16)> {
    weights.iter().map(|&weight| (0, weight)).collect()
}

/// A controller with all leaves of a flat tree active at their base shares.
fn active_controller(weights: &[u16]) -> Result<Controller, Refusal> {
    let tree = tree_of(&flat(weights))?;
    let mut controller = Controller::start(tree, Model::new(&BENCH, Rules::TRUE)?, 0, Rules::TRUE)?;
    controller.active = controller.tree.leaves();
    let shares = controller.tree.base_shares(controller.active, Rules::TRUE);
    for number in members(controller.active) {
        controller.leaves[number].share = shares[number];
    }
    Ok(controller)
}

fn bench_costs(checks: &mut Checks) -> Result<(), Refusal> {
    let model = Model::new(&BENCH, Rules::TRUE)?;
    let random_read = |bytes| model.cost(false, false, bytes, Rules::TRUE);
    checks.equal("B1 512", random_read(512), Absolute(100_000));
    checks.equal("B1 4,096", random_read(4_096), Absolute(100_000));
    checks.equal("B1 8,192", random_read(8_192), Absolute(110_000));
    let sequential_read = model.cost(false, true, 65_536, Rules::TRUE);
    checks.equal("B2", sequential_read, Absolute(170_000));
    let random_write = model.cost(true, false, 4_096, Rules::TRUE);
    checks.equal("B3", random_write, Absolute(200_000));
    let rates = Rates {
        rseqiops: 200_000,
        ..BENCH
    };
    let faster = Model::new(&rates, Rules::TRUE)?;
    checks.equal("B4", faster.read.sequential_base, 0);
    Ok(())
}

fn bench_shares(checks: &mut Checks) -> Result<(), Refusal> {
    let pair = shares_of(&flat(&[100, 300]))?;
    checks.equal("B5", pair, vec![268_435_456, 805_306_368]);
    let three = shares_of(&flat(&[100; 3]))?;
    checks.equal("B6", three, vec![357_913_941; 3]);
    let relative = relative_cost(Absolute(100_000), 357_913_941, Rules::TRUE);
    checks.equal("B6 relative", relative, Relative(300_001));
    let thinnest = shares_of(&[(0, 1), (0, 1_023), (1, 1), (1, 1_023)])?;
    checks.equal("B7", thinnest.into_iter().min(), Some(1_024));
    let thin = [(0, 1), (0, 1_023), (1, 1), (1, 1_024)];
    checks.equal("B8", shares_of(&thin), Err(Refusal::Thin));
    let smallest = tree_of(&thin)?.smallest_share(Rules::TRUE);
    checks.equal("B8 share", smallest, 1_023);
    Ok(())
}

/// A random read of 4,096 bytes, which costs 100,000 on the bench.
fn read(node: u8, flags: u8) -> Bio {
    Bio {
        node,
        flags,
        id: 1,
        sector: 0,
        bytes: 4_096,
    }
}

/// B9's leaf with the given budget; its share is a quarter.
fn with_budget(budget: u64) -> Result<Controller, Refusal> {
    let mut controller = active_controller(&[100, 300])?;
    controller.leaves[1].budget = Relative(budget);
    Ok(controller)
}

fn budget_and_debt(controller: &Controller) -> (u64, u64) {
    let leaf = &controller.leaves[1];
    (leaf.budget.0, leaf.debt.0)
}

fn bench_budget(checks: &mut Checks) -> Result<(), Refusal> {
    let fits = with_budget(400_000)?.submit(&read(1, 0));
    checks.equal("B9 fits", fits, Ok(Answer::Issued));
    let waits = with_budget(399_999)?.submit(&read(1, 0));
    checks.equal("B9 waits", waits, Ok(Answer::Waits));
    let mut controller = with_budget(399_999)?;
    let forced = controller.submit(&read(1, FORCED));
    checks.equal("B9 forced", forced, Ok(Answer::OnDebt));
    let owing = budget_and_debt(&controller);
    checks.equal("B9 budget stays", owing, (399_999, 100_000));
    checks.equal("B9 tick of 0", controller.tick(0, &mut []), Ok(0));
    checks.equal("B9 repaid", budget_and_debt(&controller), (3, 1));
    checks.equal("B9 tick of 1", controller.tick(1, &mut []), Ok(0));
    checks.equal("B9 cleared", budget_and_debt(&controller), (0, 0));
    Ok(())
}

/// Plans once with the given usages at E of 100,000,000.
fn planned(weights: &[u16], usages: &[u64]) -> Result<Controller, Refusal> {
    let mut controller = active_controller(weights)?;
    controller.period = 100_000_000;
    for (number, usage) in (1..).zip(usages) {
        controller.leaves[number].usage = Absolute(*usage);
        controller.leaves[number].accepted = true;
    }
    controller.plan()?;
    Ok(controller)
}

fn active_shares(controller: &Controller) -> Vec<u64> {
    members(controller.active)
        .map(|number| controller.leaves[number].share)
        .collect()
}

fn bench_plans(checks: &mut Checks) -> Result<(), Refusal> {
    let mut pair = planned(&[100, 300], &[25_000_000, 30_000_000])?;
    let shares = active_shares(&pair);
    checks.equal("B10", shares, vec![671_088_639, 402_653_185]);
    let three = planned(&[100; 3], &[100_000_000, 100_000_000, 1_000])?;
    let shares = active_shares(&three);
    checks.equal("B11", shares, vec![536_864_201, 536_864_200, 13_422]);
    // B12's rise is the end of B10's donation, here by a write of 500,000.
    pair.leaves[2].budget = Relative(1_000_000);
    let answer = pair.submit(&Bio {
        bytes: 65_536,
        ..read(2, WRITE)
    });
    checks.equal("B12 waits", answer, Ok(Answer::Waits));
    checks.equal("B12 share", pair.leaves[2].share, 805_306_368);
    checks.equal("B12", pair.leaves[2].budget, Relative(500_000));
    Ok(())
}

fn trace_of(text: &str) -> Vec<u8> {
    // A refused text leaves an empty trace, which the checks then notice.
    assemble_whole(text.as_bytes()).unwrap_or_default()
}

fn whole_case(checks: &mut Checks) -> io::Result<()> {
    let trace = trace_of(
        "node 0 100\nnode 0 300\n\
         model 409600000 50000 10000 204800000 25000 5000\nstart 0\n\
         bio 1 0 7 0 4096\ntick 100000\ntick 400000\nplan\n",
    );
    let mut printed = Vec::new();
    replay(trace.as_slice(), &mut printed, Rules::TRUE)?;
    let printed = String::from_utf8_lossy(&printed).into_owned();
    let wanted = "W 7\nr 7\nP 1 1073741824\n".to_string();
    checks.equal("whole case", printed, wanted);
    Ok(())
}

fn outside_costs(checks: &mut Checks) -> Result<(), Refusal> {
    let model = Model::new(&PAPER, Rules::TRUE)?;
    checks.equal("paper read page", model.read.page, 8_383);
    let base = model.read.sequential_base;
    checks.equal("paper sequential read base", base, 103_575);
    checks.equal("paper random read base", model.read.random_base, 109_016);
    let page = |write, sequential| model.cost(write, sequential, 4_096, Rules::TRUE).0;
    checks.equal("paper sequential read", page(false, true), 111_958);
    checks.equal("paper random read", page(false, false), 117_399);
    checks.equal("paper sequential write", page(true, true), 34_777);
    checks.equal("paper random write", page(true, false), 45_579);
    Ok(())
}

/// Page, sequential base and random base of each preset, read and written.
fn linux_prices(checks: &mut Checks) -> Result<(), Refusal> {
    let prices = [
        ((23_538, 439, 2_679_165), (23_002, 415, 2_622_501)),
        ((16_661, 0, 127_307), (28_975, 685, 8_345)),
        ((8_383, 103_575, 109_016), (9_573, 25_204, 36_006)),
        ((1_321, 59, 0), (2_351, 0, 0)),
    ];
    for ((name, rates), (read, write)) in LINUX.iter().zip(prices) {
        let model = Model::new(rates, Rules::TRUE)?;
        let price = |side: &Side| (side.page, side.sequential_base, side.random_base);
        checks.equal(&format!("{} read", name), price(&model.read), read);
        checks.equal(&format!("{} write", name), price(&model.write), write);
    }
    Ok(())
}

fn outside_shares(checks: &mut Checks) -> Result<(), Refusal> {
    let two = shares_of(&flat(&[1, 2]))?;
    checks.equal("weights 1:2", two, vec![357_913_941, 715_827_882]);
    let four = shares_of(&flat(&[3, 4, 5, 6]))?;
    let wanted = vec![178_956_970, 238_609_294, 298_261_617, 357_913_941];
    checks.equal("weights 3:4:5:6", four, wanted);
    Ok(())
}

/// Ticks a controller; also tells whether that changed it.
fn tick_changes(controller: &mut Controller, time: u64) -> (Result<usize, Refusal>, bool) {
    let before = controller.clone();
    let answer = controller.tick(time, &mut []);
    (answer, *controller != before)
}

fn virtual_time_limit(checks: &mut Checks) -> Result<(), Refusal> {
    let mut controller = active_controller(&[1])?;
    controller.virtual_time = MAX_VIRTUAL_TIME - 1;
    let exact = tick_changes(&mut controller, 1);
    checks.equal("tick up to 2^60", exact, (Ok(0), true));
    checks.equal("2^60", controller.virtual_time, 1 << 60);
    let none = tick_changes(&mut controller, 1);
    checks.equal("tick of 0 at 2^60", none, (Ok(0), false));
    let refused = tick_changes(&mut controller, 2);
    let wanted = (Err(Refusal::VirtualTimeLimit), false);
    checks.equal("tick up to 2^60 + 1", refused, wanted);
    Ok(())
}

/// One state in which 10 to 13 all hold for a late time, and fewer of them
/// the earlier it is.
fn tick_refusal_order(checks: &mut Checks) -> Result<(), Refusal> {
    let mut controller = active_controller(&[1])?;
    controller.submit(&read(1, 0))?;
    controller.time = 1_000;
    controller.period = MAX_PERIOD;
    controller.virtual_time = MAX_VIRTUAL_TIME;
    let back = tick_changes(&mut controller, 999);
    checks.equal("order: 9", back, (Err(Refusal::TimeBack), false));
    let jump = tick_changes(&mut controller, 1_001 + MAX_ELAPSED);
    checks.equal("order: 10", jump, (Err(Refusal::TimeJump), false));
    let late = tick_changes(&mut controller, 1_001);
    checks.equal("order: 11", late, (Err(Refusal::VirtualTimeLimit), false));
    controller.virtual_time = 0;
    let long = tick_changes(&mut controller, 1_001);
    checks.equal("order: 12", long, (Err(Refusal::PeriodLimit), false));
    let short = tick_changes(&mut controller, 1_000);
    checks.equal(
        "order: 13",
        short,
        (Err(Refusal::ReleaseBufferShort), false),
    );
    Ok(())
}

/// Three waiting bios over two leaves need three places, released or not.
fn release_buffer(checks: &mut Checks) -> Result<(), Refusal> {
    let mut controller = active_controller(&[100, 300])?;
    for (node, id) in [(2, 21), (1, 11), (2, 22)] {
        let bio = Bio {
            id,
            ..read(node, 0)
        };
        checks.equal("release: waits", controller.submit(&bio), Ok(Answer::Waits));
    }
    let before = controller.clone();
    let mut buffer = [9; 5];
    let refused = controller.tick(400_000, &mut buffer[..2]);
    checks.equal("release: 13", refused, Err(Refusal::ReleaseBufferShort));
    checks.equal("release: state kept", controller == before, true);
    checks.equal("release: buffer kept", buffer, [9; 5]);
    let nothing = controller.tick(0, &mut buffer[..3]);
    checks.equal("release: enough room", nothing, Ok(0));
    let released = controller.tick(400_000, &mut buffer);
    checks.equal("release: count", released, Ok(3));
    checks.equal("release: by leaf", buffer, [11, 21, 22, 9, 9]);
    Ok(())
}

/// B10's donation with something saved on both sides, a debt, a waiting bio
/// and all else that a weight must leave.
fn standing_donation() -> Result<Controller, Refusal> {
    let mut controller = planned(&[100, 300], &[25_000_000, 30_000_000])?;
    controller.set_vrate(50)?;
    controller.tick(20_000_000, &mut [])?;
    controller.leaves[1].budget = Relative(3_000_000);
    controller.leaves[2].budget = Relative(1_000_000);
    let waits = Bio {
        bytes: MAX_BYTES,
        ..read(1, 0)
    };
    controller.submit(&waits)?;
    controller.submit(&Bio { id: 2, ..waits })?;
    controller.leaves[1].debt = Absolute(77);
    controller.leaves[2].usage = Absolute(5);
    controller.leaves[2].end = Some(9);
    Ok(controller)
}

/// Sets a weight; also tells whether that changed the controller.
fn weight_changes(
    controller: &mut Controller,
    node: u8,
    weight: u16,
) -> (Result<(), Refusal>, bool) {
    let before = controller.clone();
    let answer = controller.set_weight(node, weight);
    (answer, *controller != before)
}

/// 19 before 22 before 2, each without a change, with a donation standing.
fn refused_weights(checks: &mut Checks) -> Result<(), Refusal> {
    let mut controller = standing_donation()?;
    checks.equal("weight: donors before", controller.donors, 1 << 2);
    for node in [0, 3, 4, 63, 64, 65, 127, 128, 255] {
        for weight in [0, 1, 10_000, 10_001, u16::MAX] {
            let refused = weight_changes(&mut controller, node, weight);
            let name = format!("weight {} {}", node, weight);
            checks.equal(&name, refused, (Err(Refusal::NoWeight), false));
        }
    }
    for node in [1, 2] {
        for weight in [0, 10_001, u16::MAX] {
            let refused = weight_changes(&mut controller, node, weight);
            let name = format!("weight {} {}", node, weight);
            checks.equal(
                &name,
                refused,
                (Err(Refusal::Tree(Fault::Weight, node)), false),
            );
        }
    }
    let absent = (3..=255).all(|node| {
        let refused = weight_changes(&mut controller, node, 100);
        refused == (Err(Refusal::NoWeight), false)
    });
    checks.equal("weight of all absent nodes", absent, true);
    // B7's tree, no leaf active; B8's is the same with 1,024 at node 4.
    let tree = tree_of(&[(0, 1), (0, 1_023), (1, 1), (1, 1_023)])?;
    let mut edge = Controller::start(tree, Model::new(&BENCH, Rules::TRUE)?, 0, Rules::TRUE)?;
    let thin = (Err(Refusal::Thin), false);
    checks.equal("weight: B8", weight_changes(&mut edge, 4, 1_024), thin);
    checks.equal("weight: thin", weight_changes(&mut edge, 2, 1_024), thin);
    let bad = weight_changes(&mut edge, 4, 10_001);
    checks.equal(
        "weight: 22 before 2",
        bad,
        (Err(Refusal::Tree(Fault::Weight, 4)), false),
    );
    let equal = weight_changes(&mut edge, 4, 1_023);
    checks.equal("weight: B7", equal, (Ok(()), false));
    Ok(())
}

/// Shares, budgets and the donation follow a weight; all else stays.
fn accepted_weights(checks: &mut Checks) -> Result<(), Refusal> {
    let quarter = 268_435_456;
    // The weight of leaf 1, then both shares and both budgets behind it. They
    // were 671,088,639 and 402,653,185, and 3,000,000 and 1,000,000.
    for (weight, shares, budgets) in [
        (100, [quarter, 3 * quarter], [3_000_000, 500_000]),
        (300, [2 * quarter, 2 * quarter], [3_000_000, 750_000]),
        (900, [3 * quarter, quarter], [2_499_999, 1_000_000]),
    ] {
        let before = standing_donation()?;
        let mut wanted = before.clone();
        wanted.tree = before.tree.with_weight(1, weight);
        wanted.donors = 0;
        for (number, leaf) in wanted.leaves[1..3].iter_mut().enumerate() {
            leaf.share = shares[number];
            leaf.budget = Relative(budgets[number]);
        }
        let mut controller = before;
        let answer = controller.set_weight(1, weight);
        let name = format!("weight 1 {}", weight);
        checks.equal(&name, answer, Ok(()));
        checks.equal(&name, controller == wanted, true);
        let sum = active_shares(&controller).iter().sum();
        checks.equal(&name, sum, WHOLE);
    }
    Ok(())
}

/// What a light leaf saved buys next to nothing once its weight is raised; if
/// it were kept, more would be spent than virtual time there was.
fn savings_at_weight(checks: &mut Checks) -> Result<(), Refusal> {
    let trace = trace_of(
        "node 0 1\nnode 0 10000\n\
         model 4096000 1000000000 1000000000 4096000 1000000000 1000000000\nstart 0\n\
         bio 1 0 1 0 4096\ntick 1000000\nbio 2 0 2 0 405504\ntick 101000000\n\
         weight 1 10000\nbio 1 0 3 8 163840\n",
    );
    checks.equal("savings", audit(&trace, Rules::TRUE), None);
    let kept = audit(&trace, Rules::with(Mutant::BudgetKeptAtWeight));
    checks.equal("savings kept", kept, Some("more spent than virtual time"));
    Ok(())
}

/// One record of each kind, its numbers at their widest.
fn widest_records() -> [Record; 8] {
    let most = u64::MAX;
    [
        Record::Node {
            parent: 255,
            weight: u16::MAX,
        },
        Record::Model(Rates {
            rbps: most,
            rseqiops: most - 1,
            rrandiops: most - 2,
            wbps: most - 3,
            wseqiops: most - 4,
            wrandiops: most - 5,
        }),
        Record::Start { time: most },
        Record::Bio(Bio {
            node: 255,
            flags: 254,
            id: u32::MAX,
            sector: most,
            bytes: u32::MAX - 1,
        }),
        Record::Tick { time: most },
        Record::Plan,
        Record::Vrate { vrate: u16::MAX },
        Record::Weight {
            node: 255,
            weight: u16::MAX - 1,
        },
    ]
}

fn record_buffer(checks: &mut Checks) -> Result<(), Refusal> {
    for (record, wanted) in widest_records().iter().zip([4, 49, 9, 19, 9, 1, 3, 4]) {
        let name = record.to_string();
        let mut buffer = [0xa5; LONGEST + 1];
        let short = encode(record, &mut buffer[..wanted - 1]);
        checks.equal(&name, short, Err(Refusal::RecordBufferShort));
        checks.equal(&name, buffer, [0xa5; LONGEST + 1]);
        checks.equal(&name, encode(record, &mut buffer), Ok(wanted));
        let rest_kept = buffer[wanted..].iter().all(|&byte| byte == 0xa5);
        checks.equal(&name, rest_kept, true);
        let read_back = decode(&buffer[..wanted], 0);
        checks.equal(&name, read_back, Ok(Some((*record, wanted))));
        if wanted > 1 {
            let cut = decode(&buffer[..wanted - 1], 0);
            checks.equal(&name, cut, Err(Refusal::CutRecord));
        }
    }
    Ok(())
}

fn places(checks: &mut Checks) -> Result<(), Refusal> {
    let trace = [6, 6, 0];
    checks.equal("place 0", decode(&trace, 0), Ok(Some((Record::Plan, 1))));
    checks.equal("place 2", decode(&trace, 2), Err(Refusal::UnknownKind));
    checks.equal("at the end", decode(&trace, 3), Ok(None));
    checks.equal("beyond it", decode(&trace, 4), Err(Refusal::CutRecord));
    checks.equal("empty trace", decode(&[], 0), Ok(None));
    let weight = [8, 3, 0xf4, 1];
    let read = Record::Weight {
        node: 3,
        weight: 500,
    };
    checks.equal("kind 8", decode(&weight, 0), Ok(Some((read, 4))));
    for cut in 1..4 {
        let refused = decode(&weight[..cut], 0);
        checks.equal("kind 8 cut", refused, Err(Refusal::CutRecord));
    }
    for kind in [0, LAST + 1, 255] {
        let refused = decode(&[kind, 3, 0xf4, 1], 0);
        checks.equal("unknown kind", refused, Err(Refusal::UnknownKind));
    }
    Ok(())
}

/// Texts that are no trace, with the line each fault is on.
fn text_refusals(checks: &mut Checks) -> Result<(), Refusal> {
    let refusals: [(&[u8], &str); 12] = [
        (
            b"plan\nplans",
            "line 2: unknown word 'plans': a line begins with \
             node, model, start, bio, tick, plan, vrate, weight or raw",
        ),
        (
            b"\n# x\nvrate",
            "line 3: too few numbers: vrate takes 1 (vrate), here are 0",
        ),
        (
            b"bio 1 0 7 0",
            "line 1: too few numbers: bio takes 5 (node flags id sector bytes), here are 4",
        ),
        (
            b"plan 1",
            "line 1: too many numbers: plan takes none, here are 1",
        ),
        (b"tick -1", "line 1: time: '-1' is not a number"),
        (b"tick +1", "line 1: time: '+1' is not a number"),
        (
            b"node 0 65536",
            "line 1: weight: 65536 is too large, at most 65535",
        ),
        (
            b"start 18446744073709551616",
            "line 1: time: 18446744073709551616 is too large, at most 18446744073709551615",
        ),
        (
            b"raw",
            "line 1: too few words: raw takes pairs of hex digits",
        ),
        (
            b"raw 00 0",
            "line 1: raw takes pairs of hex digits, and '0' is odd",
        ),
        (b"raw 0g", "line 1: 'g' is no hex digit"),
        (b"plan\nplan \xff", "line 2: this is no text"),
    ];
    for (text, wanted) in refusals {
        let said = assemble_whole(text).map_err(|fault| fault.to_string());
        checks.equal(wanted, said, Err(wanted.to_string()));
    }
    Ok(())
}

/// A generated trace reads and writes back as itself, as records and as
/// text, and keeps the promises of demand 3.
fn generated_trace(checks: &mut Checks, seed: u64, style: Style) -> io::Result<()> {
    let mut trace = Vec::new();
    generate(seed, style.usual_records(), style, &mut trace)?;
    let name = format!("trace {} {}", style.name(), seed);
    let mut reader = Reader::new(&trace);
    let mut written = Vec::new();
    let mut buffer = [0; LONGEST];
    while let Ok(Some(record)) = reader.next() {
        if let Ok(length) = encode(&record, &mut buffer) {
            written.extend_from_slice(&buffer[..length]);
        }
    }
    checks.equal(&name, written.as_slice() == &trace[..reader.place], true);
    let mut text = Vec::new();
    list(trace.as_slice(), &mut text)?;
    let text = String::from_utf8_lossy(&text);
    checks.equal(&name, trace_of(&text) == trace, true);
    checks.equal(&name, bad_nodes_told(&text), bad_nodes_refused(&trace));
    checks.equal(&name, audit(&trace, Rules::TRUE), None);
    Ok(())
}

/// The lines of a listed trace with a comment on a node, and what it names.
fn bad_nodes_told(text: &str) -> Vec<(usize, String)> {
    let told = |line: &str| {
        let (record, comment) = line.split_once(" # refusal ")?;
        let named = comment.split(':').next()?;
        let is_node = record.starts_with("node ");
        Some(named.to_string()).filter(|_| is_node)
    };
    let lines = text.lines().enumerate();
    lines
        .filter_map(|(place, line)| Some((place, told(line)?)))
        .collect()
}

/// The node records that a replay refuses by their own faults, and how.
fn bad_nodes_refused(trace: &[u8]) -> Vec<(usize, String)> {
    let mut reader = Reader::new(trace);
    let mut replay = Replay::new(Rules::TRUE);
    let mut refused = Vec::new();
    let mut place = 0;
    while let (false, Ok(Some(record))) = (replay.stopped(), reader.next()) {
        let outcome = replay.take(Ok(record));
        if let (Record::Node { .. }, Outcome::Refused(Refusal::Tree(fault, node))) =
            (record, outcome)
        {
            refused.push((place, format!("{} {}", fault as u8, node)));
        }
        place += 1;
    }
    refused
}

/// The audit of demand 3 can fail: it notices these changed rules.
fn noticed_faults(checks: &mut Checks) -> io::Result<()> {
    let spent = "more spent than virtual time";
    let sums = "shares do not sum to the base shares";
    let below = "a non-donor below its base share";
    let costs = "a leaf's costs do not add up";
    let changed = "a refused call changed the state";
    let time = "virtual time and the remainder are not the time that passed";
    let nanosecond = "the remainder is a nanosecond or more";
    let period = "E is not the virtual time since the last plan";
    let end = "an end is not that of the last bio but flushes";
    let faults = [
        (Mutant::BudgetKeptAtRise, Style::Long, spent),
        (Mutant::RemainderLost, Style::Long, sums),
        (Mutant::SumOfAllChildren, Style::Long, below),
        (Mutant::RefusedMovesEnd, Style::Long, changed),
        (Mutant::WeightMovesNoShare, Style::Weights, below),
        (Mutant::WeightKeepsDonation, Style::Weights, below),
        (Mutant::WeightTakesDebts, Style::Weights, costs),
        (Mutant::WeightTakesWaiters, Style::Weights, costs),
        (Mutant::RefusedWeightEnds, Style::Weights, changed),
        (Mutant::RefusedWeightStays, Style::Weights, changed),
        (Mutant::GrowthRoundedUp, Style::Clock, time),
        (Mutant::RestNeverKept, Style::Clock, time),
        (Mutant::RestOnlyGrows, Style::Clock, nanosecond),
        (Mutant::RestLostAtVrate, Style::Clock, time),
        (Mutant::RestLostAtPlan, Style::Clock, time),
        (Mutant::RestLostAtWeight, Style::Clock, time),
        (Mutant::RestLostAtRefusedVrate, Style::Clock, changed),
        (Mutant::RestMovedAtLimit, Style::Clock, changed),
        (Mutant::PeriodOfTickAlone, Style::Clock, period),
        (Mutant::FlushMovesEnd, Style::Flushes, end),
        (Mutant::FlushIsFirst, Style::Flushes, end),
        (Mutant::FlushTakesEnd, Style::Flushes, end),
        (Mutant::FlushOwesNothing, Style::Flushes, costs),
        (Mutant::IssuedFlushNoBudget, Style::Flushes, spent),
        (Mutant::RefusedFlushMovesEnd, Style::Flushes, changed),
    ];
    for (mutant, style, fault) in faults {
        let mut noticed = false;
        for seed in 0..20 {
            let mut trace = Vec::new();
            generate(seed, style.usual_records(), style, &mut trace)?;
            noticed = noticed || audit(&trace, Rules::with(mutant)) == Some(fault);
        }
        checks.equal(mutant.name(), noticed, true);
    }
    Ok(())
}
