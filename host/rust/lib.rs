//! Marrowkite for a host in Rust: the library's calls, safe. `include/marrowkite.h` says what each number means and how
//! much stack each call takes; `docs/HOST.md` how to link.
//!
//! A call keeps nothing, so any number of threads may call at once. Borrowed slices are all that the library asks of its
//! caller: no pointer is null, and the buffer that is lent for writing overlaps nothing else.

#![no_std]

/// What a call answers. Number 0: done. With any other number the buffer is as it was.
#[repr(C)]
#[derive(Clone, Copy, Debug, PartialEq, Eq)]
pub struct Answer {
    pub number: u64,
    pub first: u64,
    pub second: u64,
}

/// One record of a file. Number 0: the body is `file[start..start + len]`, and the next record is at `next`.
#[repr(C)]
#[derive(Clone, Copy, Debug, PartialEq, Eq)]
pub struct Record {
    pub number: u64,
    pub kind: u64,
    pub start: u64,
    pub len: u64,
    pub next: u64,
}

/// Somebody whose access log was replayed, as the 40 bytes of a record say.
#[derive(Clone, Copy, Debug, PartialEq, Eq)]
pub struct Occupant {
    /// The value of each variable; 0 past the file's last.
    pub state: [u8; 32],
    /// The sum of all events' steps, in ticks.
    pub sum: u32,
    /// The variable and the value that the last event waits for; none if it was done, or there was none.
    pub waits_for: Option<(u8, u8)>,
}

impl From<[u8; 40]> for Occupant {
    fn from(record: [u8; 40]) -> Occupant {
        let mut state = [0; 32];
        state.copy_from_slice(&record[..32]);
        Occupant {
            state,
            sum: u32::from_le_bytes([record[32], record[33], record[34], record[35]]),
            waits_for: (record[36] == 1).then_some((record[37], record[38])),
        }
    }
}

mod exported {
    use super::{Answer, Record};

    #[link(name = "marrowkite", kind = "static")]
    extern "C" {
        pub fn marrowkite_check(file: *const u8, file_len: usize) -> Answer;
        pub fn marrowkite_plan(
            file: *const u8,
            file_len: usize,
            crew: u64,
            ranks: *const u8,
            ranks_len: usize,
            plan: *mut u8,
            plan_len: usize,
        ) -> Answer;
        pub fn marrowkite_plan_seeded(
            file: *const u8,
            file_len: usize,
            crew: u64,
            plan: *mut u8,
            plan_len: usize,
        ) -> Answer;
        pub fn marrowkite_run(
            file: *const u8,
            file_len: usize,
            crew: u64,
            plan: *const u8,
            plan_len: usize,
            state: *mut u8,
            state_len: usize,
        ) -> Answer;
        pub fn marrowkite_draw(seed: u64, count: u64, ranks: *mut u8, ranks_len: usize) -> Answer;
        pub fn marrowkite_record_at(file: *const u8, file_len: usize, at: u64) -> Record;
        pub fn marrowkite_report(
            file: *const u8,
            file_len: usize,
            crew: u64,
            first: u64,
            n: u64,
            report: *mut u8,
            report_len: usize,
        ) -> Answer;
        pub fn marrowkite_chart(
            file: *const u8,
            file_len: usize,
            crew: u64,
            actions: *const u8,
            actions_len: usize,
            pairs: *const u8,
            pairs_len: usize,
        ) -> Answer;
        pub fn marrowkite_replay(
            file: *const u8,
            file_len: usize,
            crew: u64,
            log: *const u8,
            log_len: usize,
            occupant: *mut u8,
        ) -> Answer;
        pub fn marrowkite_journeys(
            file: *const u8,
            file_len: usize,
            crew: u64,
            ranks: *const u8,
            ranks_len: usize,
            rides: *const u8,
            rides_len: usize,
            start_floor: u64,
            journeys: *mut u8,
            journeys_len: usize,
        ) -> Answer;
        pub fn marrowkite_write(
            situation: u8,
            variables: *const u8,
            variables_len: usize,
            actions: *const u8,
            actions_len: usize,
            conditions: *const u8,
            conditions_len: usize,
            crews: *const u8,
            crews_len: usize,
            tasks: *const u8,
            tasks_len: usize,
            file: *mut u8,
            file_len: usize,
        ) -> Answer;
    }
}

/// Checks a file: 1 to 8 and 21. Done: first is how many actions it has, second how many variables.
pub fn check(file: &[u8]) -> Answer {
    // SAFETY: here and below, pointer and length are those of a slice, which outlives the call.
    unsafe { exported::marrowkite_check(file.as_ptr(), file.len()) }
}

/// Plans for a crew with a rank list: 1 to 8 and 21, then 22, 9, 10, 11, 12, 13. Done: the plan is `plan[..first]`. With 22, first is
/// the crew, which is not there. With 10, first is the lowest variable that has no walk, and second the value of it that no action
/// in force sets, or 255 where the trace comes round.
pub fn plan(file: &[u8], crew: u64, ranks: &[u8], plan: &mut [u8]) -> Answer {
    unsafe {
        exported::marrowkite_plan(
            file.as_ptr(),
            file.len(),
            crew,
            ranks.as_ptr(),
            ranks.len(),
            plan.as_mut_ptr(),
            plan.len(),
        )
    }
}

/// Plans for a crew with the rank list that its seed draws: as `plan`, without 9.
pub fn plan_seeded(file: &[u8], crew: u64, plan: &mut [u8]) -> Answer {
    unsafe {
        exported::marrowkite_plan_seeded(
            file.as_ptr(),
            file.len(),
            crew,
            plan.as_mut_ptr(),
            plan.len(),
        )
    }
}

/// Runs a plan of a crew: 1 to 8 and 21, then 22, 13, then step by step 14, 20, 15, 16, then 17. Done: the end state is
/// `state[..first]`.
pub fn run(file: &[u8], crew: u64, plan: &[u8], state: &mut [u8]) -> Answer {
    unsafe {
        exported::marrowkite_run(
            file.as_ptr(),
            file.len(),
            crew,
            plan.as_ptr(),
            plan.len(),
            state.as_mut_ptr(),
            state.len(),
        )
    }
}

/// Draws a rank list from a seed: 18, 19, 13. Done: the list is `ranks[..count]`, first the generator's last number.
pub fn draw(seed: u64, count: u64, ranks: &mut [u8]) -> Answer {
    unsafe { exported::marrowkite_draw(seed, count, ranks.as_mut_ptr(), ranks.len()) }
}

/// The record at a place: number 0, or 2 or 1 with kind and len 0 and the place as start and next.
pub fn record_at(file: &[u8], at: u64) -> Record {
    unsafe { exported::marrowkite_record_at(file.as_ptr(), file.len(), at) }
}

/// Writes the file that a situation and lists stand for: 3 to 7 and 21, then 13. An entry has one byte in `variables`, five in
/// `actions`, two in `conditions`, five in `crews` (how many tasks, then the seed, most significant first), three in `tasks`;
/// situation 0 and a set of 255 are not written. Done: the file is `file[..first]`.
pub fn write(
    situation: u8,
    variables: &[u8],
    actions: &[u8],
    conditions: &[u8],
    crews: &[u8],
    tasks: &[u8],
    file: &mut [u8],
) -> Answer {
    unsafe {
        exported::marrowkite_write(
            situation,
            variables.as_ptr(),
            variables.len(),
            actions.as_ptr(),
            actions.len(),
            conditions.as_ptr(),
            conditions.len(),
            crews.as_ptr(),
            crews.len(),
            tasks.as_ptr(),
            tasks.len(),
            file.as_mut_ptr(),
            file.len(),
        )
    }
}

/// Reports how varied a crew's plans of `n` seeds in a row from `first` on are: 1 to 8 and 21, then 22, 19, 18, 13. Done: the report
/// is `report[..first]`: how many plans, how many refusals 10, 11 and 12, how many different plans; then for each position of a
/// plan how often each action stood there.
pub fn report(file: &[u8], crew: u64, first: u64, n: u64, report: &mut [u8]) -> Answer {
    unsafe {
        exported::marrowkite_report(
            file.as_ptr(),
            file.len(),
            crew,
            first,
            n,
            report.as_mut_ptr(),
            report.len(),
        )
    }
}

/// Checks a crew's chart, a list of actions and pairs of two bytes, the first to be done before the second: 1 to 8 and 21, then 22,
/// 10, 11, 12, 19, 14, 25, 26, 27, 28. Done: at least one order of the list keeps all pairs, and every order that does is a straight
/// plan; first is how many actions there are, second how many pairs.
pub fn chart(file: &[u8], crew: u64, actions: &[u8], pairs: &[u8]) -> Answer {
    unsafe {
        exported::marrowkite_chart(
            file.as_ptr(),
            file.len(),
            crew,
            actions.as_ptr(),
            actions.len(),
            pairs.as_ptr(),
            pairs.len(),
        )
    }
}

/// Replays an access log from a crew's start, events of four bytes, the kind 16, a tick of two bytes, most significant first, and an
/// action: 1 to 8 and 21, then 22, then event by event 2, 1, 19, 14, 20, 23, first being the event's offset in the log. Done: first is
/// how many events were done, second how many were held; the record is the occupant, which `Occupant::from` reads.
pub fn replay(file: &[u8], crew: u64, log: &[u8], occupant: &mut [u8; 40]) -> Answer {
    unsafe {
        exported::marrowkite_replay(
            file.as_ptr(),
            file.len(),
            crew,
            log.as_ptr(),
            log.len(),
            occupant.as_mut_ptr(),
        )
    }
}

/// Makes the lift journeys of the plan that `plan` gives with the same file, crew and ranks, of a person who begins on a floor.
/// `rides` gives some actions a ride, three bytes each: the action, the floor from and the floor to, 0 to 199; one from another
/// floor than the person's is preceded by a journey there. 1 to 8 and 21, then 22, 9, 10, 11, 12; then 5 for the start floor, with
/// the number of whole rides; then ride by ride 1, 14, 5, 6, 7, with the ride's index; then 13 with the bytes needed. Done: first is
/// the number of journeys, which fill `journeys[..3 * first]`, three bytes each: step, from, to.
pub fn journeys(
    file: &[u8],
    crew: u64,
    ranks: &[u8],
    rides: &[u8],
    start_floor: u64,
    journeys: &mut [u8],
) -> Answer {
    unsafe {
        exported::marrowkite_journeys(
            file.as_ptr(),
            file.len(),
            crew,
            ranks.as_ptr(),
            ranks.len(),
            rides.as_ptr(),
            rides.len(),
            start_floor,
            journeys.as_mut_ptr(),
            journeys.len(),
        )
    }
}

#[cfg(test)]
mod tests {
    extern crate std;
    use super::*;

    const PORTER: [u8; 56] = [
        1, 2, 1, 3, 1, 2, 2, 0, 0, 1, 2, 1, 0, 1, 2, 1, 1, 2, 3, 0, 1, 3, 2, 1, 2, 2, 0, 1, 3, 0,
        1, 3, 1, 1, 2, 0, 1, 0, 4, 0, 0, 1, 4, 1, 0, 2, 4, 2, 0, 1, 5, 0, 0, 0, 1, 6,
    ];

    const VARIABLES: [u8; 3] = [2, 3, 2];
    const ACTIONS: [u8; 25] = [
        0, 0, 1, 255, 0, 1, 0, 1, 255, 0, 1, 1, 2, 255, 2, 2, 0, 1, 255, 2, 0, 1, 0, 255, 0,
    ];
    const CONDITIONS: [u8; 8] = [0, 1, 2, 1, 0, 1, 1, 1];
    const CREWS: [u8; 5] = [3, 0, 0, 0, 1];
    const TASKS: [u8; 9] = [0, 0, 1, 1, 0, 2, 2, 0, 1];

    fn answer(number: u64, first: u64, second: u64) -> Answer {
        Answer {
            number,
            first,
            second,
        }
    }

    fn draws_plans_and_runs() {
        let (mut ranks, mut steps, mut state) = ([0xaa; 5], [0xaa; 6], [0xaa; 4]);
        assert_eq!(check(&PORTER), answer(0, 5, 3));
        assert_eq!(draw(1, 5, &mut ranks), answer(0, 984943658, 0));
        assert_eq!(ranks, [3, 0, 4, 1, 2]);
        assert_eq!(plan(&PORTER, 0, &ranks, &mut steps), answer(0, 4, 0));
        assert_eq!(steps, [1, 0, 3, 2, 0xaa, 0xaa]);
        assert_eq!(run(&PORTER, 0, &steps[..4], &mut state), answer(0, 3, 0));
        assert_eq!(state, [1, 2, 1, 0xaa]);
        let mut seeded = [0xaa; 4];
        assert_eq!(plan_seeded(&PORTER, 0, &mut seeded), answer(0, 4, 0));
        assert_eq!(seeded, steps[..4]);
    }

    #[test]
    fn the_porter_gets_a_plan() {
        draws_plans_and_runs();
    }

    #[test]
    fn a_refused_call_alters_nothing() {
        let mut buffer = [0xaa; 3];
        assert_eq!(
            plan(&PORTER, 0, &[0, 1, 2, 3, 4], &mut buffer),
            answer(13, 4, 0)
        );
        assert_eq!(plan_seeded(&PORTER[..55], 0, &mut buffer), answer(1, 55, 0));
        assert_eq!(run(&PORTER, 0, &[], &mut buffer), answer(17, 0, 0));
        assert_eq!(draw(0, 3, &mut buffer), answer(18, 0, 0));
        assert_eq!(
            write(0, &VARIABLES, &ACTIONS, &CONDITIONS, &[3, 0, 0, 0, 0], &TASKS, &mut buffer),
            answer(5, 50, 0)
        );
        assert_eq!(
            write(0, &VARIABLES, &ACTIONS, &CONDITIONS, &CREWS, &TASKS, &mut buffer),
            answer(13, 56, 0)
        );
        assert_eq!(buffer, [0xaa; 3]);
    }

    #[test]
    fn empty_slices() {
        assert_eq!(check(&[]), answer(1, 0, 0));
        assert_eq!(plan(&PORTER, 0, &[], &mut []), answer(9, 0, 1));
        assert_eq!(chart(&PORTER, 0, &[], &[]), answer(25, 0, 0));
        assert_eq!(draw(7, 0, &mut []), answer(0, 7, 0));
        assert_eq!(write(0, &[], &[], &[], &[], &[], &mut []), answer(3, 0, 0));
    }

    #[test]
    fn the_porter_is_written() {
        let mut file = [0xaa; 58];
        assert_eq!(
            write(0, &VARIABLES, &ACTIONS, &CONDITIONS, &CREWS, &TASKS, &mut file),
            answer(0, 56, 0)
        );
        assert_eq!(file[..56], PORTER);
        assert_eq!(file[56..], [0xaa; 2]);
    }

    #[test]
    fn nothing_that_is_lent_is_passed_over() {
        let mut file = [0xaa; 64];
        let cut_task = write(0, &VARIABLES, &ACTIONS, &CONDITIONS, &CREWS, &TASKS[..8], &mut file);
        assert_eq!(cut_task, answer(5, 46, 0));
        let missing = write(0, &VARIABLES, &ACTIONS, &CONDITIONS[..6], &CREWS, &TASKS, &mut file);
        assert_eq!(missing, answer(5, 31, 0));
        let left_over = write(0, &VARIABLES, &ACTIONS[..20], &[0; 10], &CREWS, &TASKS, &mut file);
        assert_eq!(left_over.number, 6);
        assert_eq!(file, [0xaa; 64]);
    }

    /// Two ways to load the cart: the first by day, in situation 1, the second by night, in situation 2.
    fn night_porter(situation: u8) -> [u8; 26] {
        [
            8, situation, 1, 2, 2, 0, 0, 1, 7, 2, 2, 0, 0, 1, 7, 4, 4, 0, 0, 1, 5, 0, 0, 0, 1, 6,
        ]
    }

    #[test]
    fn the_seeds_are_reported() {
        let mut figures = [0xaa; 26];
        assert_eq!(report(&PORTER, 0, 1, 64, &mut figures), answer(0, 25, 0));
        assert_eq!(figures[..5], [64, 0, 0, 0, 2]);
        assert_eq!(figures[15..], [0, 0, 0, 64, 0, 0, 0, 64, 0, 0, 0xaa]);
        assert_eq!(report(&PORTER, 0, 1, 65, &mut figures), answer(19, 65, 0));
        assert_eq!(report(&PORTER, 0, 0, 64, &mut figures), answer(18, 0, 0));
        assert_eq!(report(&PORTER, 0, 1, 1, &mut figures[..24]), answer(13, 25, 0));
    }

    #[test]
    fn a_chart_is_checked() {
        let (listed, orders) = ([0, 1, 2, 3], [0, 2, 0, 3, 1, 2, 1, 3, 3, 2]);
        assert_eq!(chart(&PORTER, 0, &listed, &orders), answer(0, 4, 5));
        assert_eq!(chart(&PORTER, 0, &listed, &[1, 0, 0, 3, 3, 2]), answer(0, 4, 3));
        assert_eq!(chart(&PORTER, 0, &listed, &orders[..8]), answer(28, 3, 2));
        assert_eq!(chart(&PORTER, 0, &listed, &[3, 2, 2, 0, 0, 3]), answer(27, 0, 0));
        assert_eq!(chart(&PORTER, 0, &listed, &orders[..9]), answer(26, 4, 0));
        assert_eq!(chart(&PORTER, 0, &listed[1..], &orders), answer(25, 0, 0));
        assert_eq!(chart(&PORTER, 0, &[5], &orders), answer(14, 0, 0));
        assert_eq!(chart(&PORTER, 0, &[0; 257], &orders), answer(19, 257, 0));
        assert_eq!(chart(&PORTER, 0, &listed, &[0; 8193]), answer(19, 4097, 0));
        assert_eq!(chart(&PORTER[..55], 0, &[], &[]), answer(1, 55, 0));
    }

    /// What a log of (tick, action) leaves of the porter, and its answer.
    fn replayed(events: &[(u16, u8)]) -> (Answer, [u8; 40]) {
        let (mut log, mut record) = (std::vec::Vec::new(), [0xaa; 40]);
        for &(tick, action) in events {
            let [high, low] = tick.to_be_bytes();
            log.extend([16, high, low, action]);
        }
        (replay(&PORTER, 0, &log, &mut record), record)
    }

    fn occupant(values: [u8; 3], sum: u32, waits_for: Option<(u8, u8)>) -> Occupant {
        let mut state = [0; 32];
        state[..3].copy_from_slice(&values);
        Occupant {
            state,
            sum,
            waits_for,
        }
    }

    #[test]
    fn a_log_is_replayed() {
        let (answered, record) = replayed(&[(65530, 1), (2, 3), (4, 0), (1004, 3)]);
        assert_eq!(answered, answer(0, 3, 1));
        assert_eq!(Occupant::from(record), occupant([1, 1, 1], 1010, None));
        let (answered, record) = replayed(&[(0, 1), (32767, 0), (32767, 2)]);
        assert_eq!(answered, answer(0, 2, 1));
        assert_eq!(Occupant::from(record), occupant([1, 1, 0], 32767, Some((2, 1))));
        let (answered, record) = replayed(&[]);
        assert_eq!(answered, answer(0, 0, 0));
        assert_eq!(Occupant::from(record), occupant([0, 0, 0], 0, None));
    }

    #[test]
    fn a_log_is_refused_and_the_record_stays() {
        assert_eq!(replayed(&[(0, 0), (32768, 4)]), (answer(23, 4, 0), [0xaa; 40]));
        assert_eq!(replayed(&[(0, 0), (0, 5)]), (answer(14, 4, 0), [0xaa; 40]));
        assert_eq!(replayed(&[(0, 0); 16385]), (answer(19, 65536, 0), [0xaa; 40]));
        assert_eq!(replayed(&[(0, 0); 16384]).0, answer(0, 1, 16383));
        let mut record = [0xaa; 40];
        assert_eq!(replay(&PORTER, 0, &[16, 0, 0], &mut record), answer(1, 0, 0));
        assert_eq!(replay(&PORTER, 0, &[0], &mut record), answer(2, 0, 0));
        assert_eq!(replay(&PORTER[..55], 0, &[0], &mut record), answer(1, 55, 0));
        let by_night = replay(&night_porter(2), 0, &[16, 0, 0, 0], &mut record);
        assert_eq!((by_night, record), (answer(20, 0, 0), [0xaa; 40]));
    }

    #[test]
    fn journeys_are_made() {
        let (rising, mut made) = ([0, 1, 2, 3, 4], [0xaa; 8]);
        assert_eq!(journeys(&PORTER, 0, &rising, &[2, 0, 7], 5, &mut made), answer(0, 2, 0));
        assert_eq!(made, [3, 5, 0, 3, 0, 7, 0xaa, 0xaa]);
        assert_eq!(journeys(&PORTER, 0, &rising, &[2, 0, 7], 0, &mut made), answer(0, 1, 0));
        assert_eq!(made, [3, 0, 7, 3, 0, 7, 0xaa, 0xaa]);
        assert_eq!(journeys(&PORTER, 0, &rising, &[], 199, &mut made), answer(0, 0, 0));
        assert_eq!(journeys(&PORTER, 0, &rising, &[2, 0, 7, 1], 200, &mut made), answer(5, 1, 0));
        assert_eq!(journeys(&PORTER, 0, &rising, &[2, 0, 7, 1], 0, &mut made), answer(1, 1, 0));
        assert_eq!(journeys(&PORTER, 0, &rising, &[5, 0, 7], 0, &mut made), answer(14, 0, 0));
        assert_eq!(journeys(&PORTER, 0, &rising, &[2, 0, 200], 0, &mut made), answer(5, 0, 0));
        assert_eq!(journeys(&PORTER, 0, &rising, &[2, 7, 7], 0, &mut made), answer(6, 0, 0));
        assert_eq!(journeys(&PORTER, 0, &rising, &[4, 0, 7, 4, 1, 2], 0, &mut made), answer(7, 1, 0));
        assert_eq!(journeys(&PORTER, 0, &rising, &[2, 0, 7], 5, &mut made[..5]), answer(13, 6, 0));
        assert_eq!(journeys(&PORTER, 0, &[], &[9], 200, &mut made), answer(9, 0, 1));
        assert_eq!(made, [3, 0, 7, 3, 0, 7, 0xaa, 0xaa]);
    }

    /// The porter, and behind it a crew that brings the pass back and fetches the cart.
    fn two_crews() -> [u8; 74] {
        let mut file = [0; 74];
        file[..55].copy_from_slice(&PORTER[..55]);
        file[55..].copy_from_slice(&[
            9, 4, 0, 1, 0, 4, 1, 0, 1, 4, 2, 0, 0, 5, 0, 0, 0, 2, 6,
        ]);
        file
    }

    #[test]
    fn each_crew_has_its_own_plan() {
        let (file, rising) = (two_crews(), [0, 1, 2, 3, 4]);
        let (mut steps, mut state, mut figures) = ([0xaa; 4], [0xaa; 3], [0xaa; 15]);
        assert_eq!(check(&file), answer(0, 5, 3));
        assert_eq!(plan(&file, 0, &rising, &mut steps), answer(0, 4, 0));
        assert_eq!(steps, [0, 1, 3, 2]);
        assert_eq!(plan(&file, 1, &rising, &mut steps), answer(0, 2, 0));
        assert_eq!(steps, [1, 4, 3, 2]);
        assert_eq!(run(&file, 1, &[4, 1], &mut state), answer(0, 3, 0));
        assert_eq!(state, [0, 1, 0]);
        assert_eq!(report(&file, 1, 1, 64, &mut figures), answer(0, 15, 0));
        assert_eq!(figures[..5], [64, 0, 0, 0, 2]);
        assert_eq!(chart(&file, 1, &[4, 1], &[]), answer(0, 2, 0));
        let (crews, mut tasks) = ([3, 0, 0, 0, 1, 3, 0, 0, 0, 2], [0, 0, 1, 1, 0, 2, 2, 0, 1, 0, 1, 0, 1, 0, 1, 2, 0, 0]);
        let mut written = [0; 74];
        let of_lists = write(0, &VARIABLES, &ACTIONS, &CONDITIONS, &crews, &tasks, &mut written);
        assert_eq!((of_lists, written), (answer(0, 74, 0), file));
        tasks[14] = 3;
        let too_large = write(0, &VARIABLES, &ACTIONS, &CONDITIONS, &crews, &tasks, &mut written);
        assert_eq!(too_large, answer(5, 60, 0));
    }

    #[test]
    fn a_crew_that_is_not_there() {
        let mut buffer = [0xaa; 4];
        for crew in [2, 8, 255, 1 << 32, u64::MAX] {
            assert_eq!(plan(&two_crews(), crew, &[], &mut buffer), answer(22, crew, 0));
            assert_eq!(plan_seeded(&two_crews(), crew, &mut buffer), answer(22, crew, 0));
            assert_eq!(run(&two_crews(), crew, &[9], &mut []), answer(22, crew, 0));
            assert_eq!(report(&two_crews(), crew, 0, 0, &mut buffer), answer(22, crew, 0));
            assert_eq!(chart(&two_crews(), crew, &[9], &[0]), answer(22, crew, 0));
            assert_eq!(replay(&two_crews(), crew, &[0], &mut [0; 40]), answer(22, crew, 0));
            assert_eq!(journeys(&two_crews(), crew, &[], &[9], 200, &mut buffer), answer(22, crew, 0));
        }
        assert_eq!(plan_seeded(&two_crews()[..73], 2, &mut buffer), answer(1, 73, 0));
        assert_eq!(buffer, [0xaa; 4]);
    }

    #[test]
    fn the_situation_decides() {
        let mut steps = [0xaa; 1];
        for (situation, action) in [(1, 0), (2, 1)] {
            let file = night_porter(situation);
            assert_eq!(plan_seeded(&file, 0, &mut steps), answer(0, 1, 0));
            assert_eq!(steps, [action]);
            assert_eq!(run(&file, 0, &[1 - action], &mut steps), answer(20, 0, 0));
            let (mut written, actions) = ([0; 26], [0, 0, 1, 2, 0, 0, 0, 1, 4, 0]);
            let of_lists = write(situation, &[2], &actions, &[], &[1, 0, 0, 0, 1], &[0, 0, 1], &mut written);
            assert_eq!((of_lists, written), (answer(0, 26, 0), file));
        }
        assert_eq!(plan_seeded(&night_porter(3), 0, &mut steps), answer(10, 0, 1));
        assert_eq!(check(&night_porter(8)), answer(5, 0, 0));
    }

    #[test]
    fn it_says_where_a_walk_breaks() {
        let mut broken = PORTER;
        (broken[44], broken[45]) = (2, 1);
        assert_eq!(plan_seeded(&broken, 0, &mut []), answer(10, 1, 0));
        let round = [1, 3, 2, 0, 1, 2, 2, 0, 2, 1, 4, 0, 0, 2, 5, 0, 0, 0, 1, 6];
        assert_eq!(plan_seeded(&round, 0, &mut []), answer(10, 0, 255));
    }

    #[test]
    fn records_one_after_another() {
        let (mut at, mut kinds) = (0, std::vec::Vec::new());
        while at < PORTER.len() as u64 {
            let record = record_at(&PORTER, at);
            assert_eq!(
                (record.number, record.start, record.next),
                (0, at + 1, at + 1 + record.len)
            );
            kinds.push(record.kind);
            at = record.next;
        }
        assert_eq!(kinds, [1, 1, 1, 2, 2, 2, 3, 3, 2, 3, 3, 2, 4, 4, 4, 5, 6]);
        let past_the_end = Record {
            number: 1,
            kind: 0,
            start: 56,
            len: 0,
            next: 56,
        };
        assert_eq!(record_at(&PORTER, u64::MAX), past_the_end);
    }

    #[test]
    fn many_threads_at_once() {
        std::thread::scope(|scope| {
            for _ in 0..8 {
                scope.spawn(|| (0..1000).for_each(|_| draws_plans_and_runs()));
            }
        });
    }
}
