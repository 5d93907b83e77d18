//! An implementation of the calls against the oracle, byte for byte: the answer, the cache and every lent buffer.
//!
//! The tests are generic over [`calls::Calls`], so that the same ones run on the linked library and on plain Rust, and what both families
//! of addresses have is one test over the family. Every input is seeded, so that a failure comes again.
pub mod calls;
pub mod compare;
pub mod edges;
pub mod families;
pub mod hashes;
pub mod inputs;
pub mod messages;
pub mod newest;
pub mod opened;
pub mod random;
pub mod records;
pub mod refusals;
pub mod runs;
pub mod waits;
pub mod withdrawals;

/// Every differential test of an implementation, each as a test of its own.
macro_rules! differential_tests {
    // Those of one family, with what each is called with.
    (@of $given:tt) => {
        differential_tests! { @with $given;
            records { ads_written ads_read }
            opened { every_length single_defects sums every_bit not_made_by_our_calls listings }
            refusals { each_and_every_pair other_ads of_get_ads of_withdraw lengths_off_by_one random_bytes }
            runs { honest crowded shown_again moved every_window }
            waits { every_small_capacity random_capacities at_the_last_clock }
            withdrawals { every_small_cache any_cache until_none_is_left still_refused kinds_make_no_difference waits_stay listed_past_ten counters_wrap }
        }
    };
    (@with $given:tt; $($group:ident { $($test:ident)* })*) => {
        $(mod $group {
            $(#[test]
            fn $test() {
                $crate::differential::$group::$test $given
            })*
        })*
    };
    ($calls:expr) => {
        differential_tests! { @with (&$calls);
            hashes { published_vectors every_length wrong_lengths service_ids }
            records { tickets_written tickets_read tickets_tampered }
            messages { round_trips every_byte_changed every_cut_and_more other_forms seconds epochs written }
            newest { every_small_pair any_caches one_slice equal_times refused }
            families { numbers lengths_of_both heads_of_neither entries_of_the_other ads_of_the_other lists_of_the_other }
            edges { shared_bits empty full points_of_many }
        }
        mod v4 {
            differential_tests! { @of (&$calls, $crate::oracle::family::Family::V4) }
        }
        mod v6 {
            differential_tests! { @of (&$calls, $crate::oracle::family::Family::V6) }
        }
    };
}
