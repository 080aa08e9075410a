// The checks, one test each.
mod checks;

macro_rules! tests {
    ($($name:ident)*) => {
        $(#[test] fn $name() {
            let (_, check) = checks::ALL.iter().find(|(name, _)| *name == stringify!($name)).expect("listed");
            check();
        })*

        #[test]
        fn every_check_is_a_test() {
            assert_eq!(checks::ALL.iter().map(|(name, _)| *name).collect::<Vec<_>>(), [$(stringify!($name)),*]);
        }
    };
}

tests! {
    sample_match settings draws longest_list turned_picture facing_neighbours length_cells refused_images refused_steps refused_draws short_buffers
    rewards unit_numbers turns events_as_bytes spaces books refused_books lent_books sentences faults boards what_an_image_shows events_as_letters actions_by_number
    settings_as_keys match_by_the_lead match_at_max_ticks any_match
}
