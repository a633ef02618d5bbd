//! What the self test asks of the clock: that a tick adds what its time and
//! the remainder make together, that nothing else moves the remainder, and
//! that so no part of a nanosecond is lost, whatever is called.

use crate::engine::clock::{MAX_ELAPSED, MAX_PERIOD, MAX_VIRTUAL_TIME, MAX_VRATE};
use crate::engine::controller::{Controller, MAX_WAITING};
use crate::engine::cost::{Bio, FORCED, WRITE};
use crate::engine::numbers::Relative;
use crate::engine::refusal::Refusal;
use crate::generator::random::Random;
use crate::selftest::{active_controller, read, tick_changes, Checks};

/// Two leaves, with a vrate and a remainder.
fn held(vrate: u16, remainder: u64) -> Result<Controller, Refusal> {
    let mut controller = active_controller(&[100, 300])?;
    controller.set_vrate(vrate)?;
    controller.remainder = remainder;
    Ok(controller)
}

/// Virtual time and what it is behind, in hundredths.
fn hundredths(controller: &Controller) -> u128 {
    100 * u128::from(controller.virtual_time) + u128::from(controller.remainder)
}

/// Elapsed time, vrate and remainder; growth and remainder behind the tick. E
/// and the budgets grow alike.
pub fn growths(checks: &mut Checks) -> Result<(), Refusal> {
    for (elapsed, vrate, remainder, growth, left) in [
        (7, 50, 0, 3, 50),
        (7, 50, 50, 4, 0),
        (14, 50, 0, 7, 0),
        (0, 50, 50, 0, 50),
        (1, 1, 0, 0, 1),
        (1, 1, 98, 0, 99),
        (1, 1, 99, 1, 0),
        (99, 1, 0, 0, 99),
        (100, 1, 0, 1, 0),
        (3, 33, 0, 0, 99),
        (3, 33, 1, 1, 0),
        (1, 99, 1, 1, 0),
        (1, 100, 37, 1, 37),
        (1, 101, 98, 1, 99),
        (1, 101, 99, 2, 0),
        (1, 333, 66, 3, 99),
        (1, 333, 67, 4, 0),
        (1, 399, 0, 3, 99),
        (1, 399, 99, 4, 98),
        (1, 400, 99, 4, 99),
        (MAX_ELAPSED, 1, 99, 10_000_000, 99),
        (MAX_ELAPSED - 1, 333, 33, 3_329_999_997, 0),
        (MAX_ELAPSED, 400, 99, 4_000_000_000, 99),
    ] {
        let mut controller = held(vrate, remainder)?;
        let answer = controller.tick(elapsed, &mut []);
        let name = format!("{} ns at vrate {} and {}", elapsed, vrate, remainder);
        checks.equal(&name, answer, Ok(0));
        let reached = (controller.virtual_time, controller.remainder);
        checks.equal(&name, reached, (growth, left));
        checks.equal(&name, controller.period, growth);
        let saved = Relative(growth.min(1 << 27));
        checks.equal(&name, controller.leaves[1].budget, saved);
    }
    Ok(())
}

/// One tick, or the same time in two or in any number of ticks: at each vrate
/// the clocks and the budgets end alike.
pub fn split_times(checks: &mut Checks) -> Result<(), Refusal> {
    let mut random = Random::new(3);
    for vrate in 1..=MAX_VRATE {
        let last = random.between(1, 2_000);
        let mut whole = held(vrate, 0)?;
        whole.tick(last, &mut [])?;
        let mut halves = held(vrate, 0)?;
        halves.tick(last / 2, &mut [])?;
        halves.tick(last, &mut [])?;
        let mut parts = held(vrate, 0)?;
        while parts.time < last {
            let time = parts.time + random.between(0, 20);
            parts.tick(time.min(last), &mut [])?;
        }
        let name = format!("{} ns at vrate {} in parts", last, vrate);
        let wanted = u128::from(last) * u128::from(vrate);
        checks.equal(&name, hundredths(&whole), wanted);
        checks.equal(&name, whole == halves && whole == parts, true);
    }
    Ok(())
}

/// Any bio: small, of either leaf or of none, and now and then bad.
fn any_bio(random: &mut Random) -> Bio {
    Bio {
        node: random.below(4) as u8,
        flags: random.pick(&[0, 0, WRITE, FORCED, 4]),
        id: 1,
        sector: random.below(1 << 20),
        bytes: random.pick(&[512, 4_096, 65_536, 100]),
    }
}

/// A call that is no tick, or one that is refused or takes no time.
fn call_aside(controller: &mut Controller, random: &mut Random) {
    let released = &mut [0; MAX_WAITING];
    let time = controller.time;
    // What they answer does not matter here.
    let _ = match random.below(7) {
        0 | 1 => controller.submit(&any_bio(random)).is_ok(),
        2 => controller.plan().is_ok(),
        3 => {
            let node = random.below(4) as u8;
            let weight = random.pick(&[0, 1, 100, 300, 10_000, 10_001]);
            controller.set_weight(node, weight).is_ok()
        }
        4 => controller.tick(time, released).is_ok(),
        5 => controller.tick(time.wrapping_sub(1), released).is_ok(),
        _ => controller.tick(time + MAX_ELAPSED + 33, released).is_ok(),
    };
}

/// Whatever is called, virtual time and the remainder are together the time
/// that passed in accepted ticks, each at its rate; and only they move them.
pub fn calls_between(checks: &mut Checks) -> Result<(), Refusal> {
    let released = &mut [0; MAX_WAITING];
    for seed in 0..200 {
        let mut random = Random::new(seed);
        let mut controller = held(random.between(1, 400) as u16, 0)?;
        let changing = seed % 2 == 1;
        let mut passed = 0;
        let mut kept = true;
        for _ in 0..100 {
            let before = hundredths(&controller);
            call_aside(&mut controller, &mut random);
            if changing {
                let _ = controller.set_vrate(random.between(0, 401) as u16);
            }
            kept = kept && hundredths(&controller) == before;
            let most = random.pick(&[9, 9, 1_000, 400_000]);
            let elapsed = random.between(0, most);
            controller.tick(controller.time + elapsed, released)?;
            passed += u128::from(elapsed) * u128::from(controller.vrate);
            kept = kept && controller.remainder < 100;
        }
        let name = format!("calls between {}", seed);
        checks.equal(&name, kept, true);
        checks.equal(&name, hundredths(&controller), passed);
    }
    Ok(())
}

/// Neither clock nor anything else moves at a refused tick, 9 to 13.
pub fn refused_ticks(checks: &mut Checks) -> Result<(), Refusal> {
    let mut controller = held(33, 73)?;
    controller.submit(&read(1, 0))?;
    controller.time = 1_000;
    let back = tick_changes(&mut controller, 999);
    checks.equal("remainder: 9", back, (Err(Refusal::TimeBack), false));
    let jump = tick_changes(&mut controller, 1_001 + MAX_ELAPSED);
    checks.equal("remainder: 10", jump, (Err(Refusal::TimeJump), false));
    let end = tick_changes(&mut controller, u64::MAX);
    checks.equal("remainder: far 10", end, (Err(Refusal::TimeJump), false));
    let short = tick_changes(&mut controller, 1_001);
    let wanted = (Err(Refusal::ReleaseBufferShort), false);
    checks.equal("remainder: 13", short, wanted);
    controller.period = MAX_PERIOD;
    let long = tick_changes(&mut controller, 1_001);
    checks.equal("remainder: 12", long, (Err(Refusal::PeriodLimit), false));
    controller.virtual_time = MAX_VIRTUAL_TIME;
    let late = tick_changes(&mut controller, 1_001);
    checks.equal(
        "remainder: 11",
        late,
        (Err(Refusal::VirtualTimeLimit), false),
    );
    Ok(())
}

/// 11 and 12 go by the growth with the remainder: a part of a nanosecond
/// passes no limit, and the hundredth that makes it whole does.
pub fn limits(checks: &mut Checks) -> Result<(), Refusal> {
    let at_virtual_time = |short| (MAX_VIRTUAL_TIME - short, 0, Refusal::VirtualTimeLimit);
    let at_period = |short| (0, MAX_PERIOD - short, Refusal::PeriodLimit);
    for (short, elapsed, vrate, remainder, accepted) in [
        // One nanosecond short of the limit, and at it.
        (1, 1, 100, 0, true),
        (0, 1, 100, 0, false),
        // With what is held the limit is reached, or passed.
        (1, 1, 1, 99, true),
        (0, 1, 1, 98, true),
        (0, 1, 1, 99, false),
        (0, 1, 50, 49, true),
        (0, 1, 50, 50, false),
        (3, 1, 399, 0, true),
        (3, 1, 399, 1, false),
        (3, 1, 333, 66, true),
        (3, 1, 333, 67, false),
        (4, 1, 400, 99, true),
        // Without it the time alone decides.
        (0, 99, 1, 0, true),
        (0, 100, 1, 0, false),
        (0, 0, 400, 99, true),
    ] {
        for (virtual_time, period, refusal) in [at_virtual_time(short), at_period(short)] {
            let mut controller = held(vrate, remainder)?;
            controller.virtual_time = virtual_time;
            controller.period = period;
            let ticked = tick_changes(&mut controller, elapsed);
            let name = format!(
                "{:?}: {} ns at vrate {} and {}, {} short",
                refusal, elapsed, vrate, remainder, short
            );
            let wanted = if accepted {
                (Ok(0), elapsed > 0)
            } else {
                (Err(refusal), false)
            };
            checks.equal(&name, ticked, wanted);
        }
    }
    Ok(())
}
