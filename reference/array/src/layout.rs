//! Where parity and data of a stripe lie.

/// The layouts of RAID-5 by qualifier: 0, 2 and 3.
#[derive(Clone, Copy, Debug, PartialEq, Eq)]
pub enum Layout {
    RightAsymmetric,
    LeftAsymmetric,
    LeftSymmetric,
}

impl Layout {
    pub fn of_qualifier(qualifier: usize) -> Option<Layout> {
        match qualifier {
            0 => Some(Layout::RightAsymmetric),
            2 => Some(Layout::LeftAsymmetric),
            3 => Some(Layout::LeftSymmetric),
            _ => None,
        }
    }

    pub fn qualifier(self) -> usize {
        match self {
            Layout::RightAsymmetric => 0,
            Layout::LeftAsymmetric => 2,
            Layout::LeftSymmetric => 3,
        }
    }

    pub fn parity_member(self, members: usize, stripe: usize) -> usize {
        match self {
            Layout::RightAsymmetric => stripe % members,
            Layout::LeftAsymmetric | Layout::LeftSymmetric => members - 1 - stripe % members,
        }
    }

    pub fn member_of(self, members: usize, stripe: usize, position: usize) -> usize {
        let parity = self.parity_member(members, stripe);
        match self {
            Layout::LeftSymmetric => (parity + 1 + position) % members,
            _ if position < parity => position,
            _ => position + 1,
        }
    }
}

#[cfg(test)]
mod tests {
    use super::*;

    const ALL: [Layout; 3] = [Layout::RightAsymmetric, Layout::LeftAsymmetric, Layout::LeftSymmetric];

    #[test]
    fn block_16_of_4_members_and_block_0_of_3() {
        assert_eq!(ALL.map(|layout| layout.member_of(4, 5, 1)), [2, 1, 0]);
        assert_eq!(ALL.map(|layout| layout.member_of(3, 0, 0)), [1, 0, 0]);
    }

    #[test]
    fn members_of_a_stripe_differ() {
        for (layout, members, stripe) in ALL.iter().flat_map(|l| (3..=8).flat_map(move |m| (0..20).map(move |s| (*l, m, s)))) {
            let mut used: Vec<usize> = (0..members - 1).map(|j| layout.member_of(members, stripe, j)).collect();
            used.push(layout.parity_member(members, stripe));
            used.sort_unstable();
            assert_eq!(used, (0..members).collect::<Vec<_>>(), "{layout:?} of {members} members, stripe {stripe}");
        }
    }
}
