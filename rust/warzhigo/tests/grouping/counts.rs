//! What random stores have met: so that nothing is held by never being asked.

#[derive(Default, Debug)]
pub struct Counts {
    pub stores: u64,
    /// Pairs of different fragments.
    pub independent: u64,
    pub sharing: u64,
    pub named_one_way: u64,
    pub named_both_ways: u64,
    /// Operations with a twin, and those of them inside others; groups of three and more.
    pub twins: u64,
    pub twins_inside: u64,
    pub twins_with_regions: u64,
    pub large_groups: u64,
    /// Operations equal to an earlier one, which isn't independent of it.
    pub equal_and_named: u64,
    /// Operations that have a twin under a list or an ignore rule alone.
    pub by_list: u64,
    pub by_rule: u64,
}

impl Counts {
    pub fn often_enough(&self) {
        let Counts { stores, independent, sharing, named_one_way, named_both_ways, twins, twins_inside, twins_with_regions, .. } = *self;
        let Counts { large_groups, equal_and_named, by_list, by_rule, .. } = *self;
        assert!(stores >= 500 && independent > 100_000, "{self:#?}");
        assert!(sharing > 3_000 && named_one_way > 10_000 && named_both_ways > 3_000, "{self:#?}");
        assert!(twins > 1_000 && twins_inside > 500 && twins_with_regions > 400 && large_groups > 200, "{self:#?}");
        assert!(equal_and_named > 10 && by_list > 30 && by_rule > 90, "{self:#?}");
    }
}
