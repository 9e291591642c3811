// What stands around the two files of matan: the direction, which the Rust finds with a function that is not in the
// text and which is an input here, and the doors.

use std::sync::atomic::{AtomicBool, Ordering::Relaxed};

static RISING: AtomicBool = AtomicBool::new(true);

/// The stand-in for the function that is not in the text: the direction of the question that is being asked.
pub(crate) fn is_curve_ascending<T>(_: &[T]) -> bool {
    RISING.load(Relaxed)
}

pub mod doors {
    use super::RISING;
    use std::cmp::Ordering;
    use std::sync::atomic::{AtomicU32, Ordering::Relaxed};

    static VIOLATIONS: AtomicU32 = AtomicU32::new(0);

    /// An entry that counts how often it was found below or above another. The Rust keeps its count of violations to
    /// itself; since it takes entries of any type that can be compared, these tell it.
    #[derive(PartialEq)]
    struct Telling(u16);

    impl PartialOrd for Telling {
        fn partial_cmp(&self, other: &Telling) -> Option<Ordering> {
            self.0.partial_cmp(&other.0)
        }
        fn lt(&self, other: &Telling) -> bool {
            tell(self.0 < other.0)
        }
        fn gt(&self, other: &Telling) -> bool {
            tell(self.0 > other.0)
        }
    }

    fn tell(found: bool) -> bool {
        VIOLATIONS.fetch_add(u32::from(found), Relaxed);
        found
    }

    /// The Rust's verdict, and the violations that it counted.
    pub fn is_curve_monotonic(table: &[u16], rising: bool) -> (bool, u32) {
        RISING.store(rising, Relaxed);
        VIOLATIONS.store(0, Relaxed);
        let telling: Vec<Telling> = table.iter().map(|&entry| Telling(entry)).collect();
        let told = super::monotonic::is_curve_monotonic(&telling);
        let verdict = super::monotonic::is_curve_monotonic(table);
        assert_eq!(told, verdict, "entries that tell change no verdict");
        (verdict, VIOLATIONS.load(Relaxed))
    }

    pub fn is_curve_degenerated(table: &[u16]) -> bool {
        super::degeneration::is_curve_degenerated(table)
    }
}
