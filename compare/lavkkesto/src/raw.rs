//! The archive's functions, as include/lavkkesto.h declares them.

use crate::MACHINES;

/// Each call is declared once. Where the archive has it (build.rs then sets a `cfg` of its name), it is the archive's;
/// else it is there by name alone.
macro_rules! calls {
    ($(fn $name:ident($($argument:ident: $type:ty),* $(,)?) $(-> $answer:ty)?;)*) => {
        extern "C" {
            $(
                #[cfg($name)]
                pub fn $name($($argument: $type),*) $(-> $answer)?;
            )*
        }
        $(
            #[cfg(not($name))]
            #[allow(unused_variables, clippy::too_many_arguments)]
            pub unsafe fn $name($($argument: $type),*) $(-> $answer)? {
                panic!("no archive with {} is linked", stringify!($name))
            }
        )*
        /// Each call, and whether it is there.
        pub const LINKED: &[(&str, bool)] = &[$((stringify!($name), cfg!($name))),*];
    };
}

calls! {
    fn lavkkesto_time(
        plan: *const u8, plan_len: usize,
        cells: *const usize, cells_len: usize,
        lens: *const [usize; MACHINES],
        activities: *mut usize, activities_len: usize,
        machines: *mut usize, machines_len: usize,
        starts: *mut u64, starts_len: usize,
        ends: *mut u64, ends_len: usize,
        setups: *mut u64, setups_len: usize,
        code: *mut [u64; 4],
    );
    fn lavkkesto_time_order(
        plan: *const u8, plan_len: usize,
        activities: *mut usize, activities_len: usize,
        machines: *mut usize, machines_len: usize,
        starts: *mut u64, starts_len: usize,
        ends: *mut u64, ends_len: usize,
        setups: *mut u64, setups_len: usize,
        code: *mut [u64; 4],
    );
    fn lavkkesto_time_again(
        plan: *const u8, plan_len: usize,
        cells: *const usize, cells_len: usize,
        lens: *const [usize; MACHINES],
        times: usize,
    ) -> u64;
    fn lavkkesto_in_order(
        plan: *const u8, plan_len: usize,
        activities: *mut usize, activities_len: usize,
        machines: *mut usize, machines_len: usize,
        starts: *mut u64, starts_len: usize,
        ends: *mut u64, ends_len: usize,
        setups: *mut u64, setups_len: usize,
        code: *mut [u64; 4],
    );
    fn lavkkesto_active(
        plan: *const u8, plan_len: usize,
        activities: *mut usize, activities_len: usize,
        machines: *mut usize, machines_len: usize,
        starts: *mut u64, starts_len: usize,
        ends: *mut u64, ends_len: usize,
        setups: *mut u64, setups_len: usize,
        code: *mut [u64; 4],
    );
    fn lavkkesto_decode(
        plan: *const u8, plan_len: usize,
        activities: *mut usize, activities_len: usize,
        machines: *mut usize, machines_len: usize,
        starts: *mut u64, starts_len: usize,
        ends: *mut u64, ends_len: usize,
        setups: *mut u64, setups_len: usize,
        code: *mut [u64; 4],
    );
    fn lavkkesto_check(
        plan: *const u8, plan_len: usize,
        rows: *const i64, rows_len: usize,
        code: *mut [u64; 3],
    );
    fn lavkkesto_improve(
        plan: *const u8, plan_len: usize,
        cells: *mut usize, cells_len: usize,
        tasks: *mut usize, tasks_len: usize,
        machines: *mut usize, machines_len: usize,
        code: *mut [u64; 3],
    );
    fn lavkkesto_look(
        plan: *const u8, plan_len: usize,
        cells: *const usize, cells_len: usize,
        lens: *const [usize; MACHINES],
        path: *mut usize, path_len: usize,
        moves: *mut usize, moves_len: usize,
        kept: *mut usize, kept_len: usize,
        ranks: *mut u64, ranks_len: usize,
        code: *mut [u64; 7],
    );
}
