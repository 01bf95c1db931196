//! The families of request sets: document 01's three, and the levels of
//! request 2.1.

use super::setup::set_of;
use super::{Refusal, Site, MOST_SITES};

/// A family with its parameter, not yet judged.
#[derive(Clone, Copy, Debug, PartialEq, Eq)]
pub enum Family {
    /// A square of the given side.
    Grid(u64),
    /// Broken billiard paths (source document 000) on a board of the given side.
    Billiard(u64),
    /// The projective plane (source document 002) of the given order.
    Plane(u64),
    /// Desks on so many rows, bays and levels (request 2.1).
    Levels(u64, u64, u64),
}

impl Family {
    /// The families of document 01 with every parameter it lists.
    pub const LISTED: [Family; 11] = [
        Family::Grid(1),
        Family::Grid(2),
        Family::Grid(3),
        Family::Grid(4),
        Family::Grid(5),
        Family::Billiard(3),
        Family::Billiard(5),
        Family::Billiard(7),
        Family::Plane(2),
        Family::Plane(3),
        Family::Plane(5),
    ];

    /// Every rig on levels: all sides with a product of at most 31.
    pub fn all_levels() -> Vec<Family> {
        let sides = 1..=MOST_SITES as u64;
        let mut all = Vec::new();
        for a in sides.clone() {
            for b in sides.clone() {
                all.extend(sides.clone().map(|c| Family::Levels(a, b, c)));
            }
        }
        all.retain(|family| family.is_made());
        all
    }

    /// Every family with every parameter for which it is made.
    pub fn all() -> Vec<Family> {
        [&Family::LISTED[..], &Family::all_levels()].concat()
    }

    /// The family of this name with these parameters; nothing if there is no
    /// such name or it takes another number of them.
    pub fn named(name: &[u8], parameters: &[u64]) -> Option<Family> {
        match (name, parameters) {
            (b"grid", &[side]) => Some(Family::Grid(side)),
            (b"billiard", &[q]) => Some(Family::Billiard(q)),
            (b"plane", &[p]) => Some(Family::Plane(p)),
            (b"levels", &[a, b, c]) => Some(Family::Levels(a, b, c)),
            _ => None,
        }
    }

    /// Whether the paper has this family with this parameter.
    fn is_made(self) -> bool {
        match self {
            Family::Levels(a, b, c) => {
                // A product of sides from 1 up is no smaller than any of them,
                // so a side above the most gives no rig; the others are small.
                let most = MOST_SITES as u64;
                [a, b, c].iter().all(|side| (1..=most).contains(side)) && a * b * c <= most
            }
            _ => Family::LISTED.contains(&self),
        }
    }

    /// The sets as lists, site 1 first; 12 if the parameter is not listed, or
    /// the sides are not as they should be.
    pub fn lists(self) -> Result<Vec<Vec<Site>>, Refusal> {
        if !self.is_made() {
            return Err(Refusal::Parameter);
        }
        // No parameter that passes is above 31.
        Ok(match self {
            Family::Grid(side) => grid(side as Site),
            Family::Billiard(q) => billiard(q as Site),
            Family::Plane(p) => plane(p as Site),
            Family::Levels(a, b, c) => levels(a as Site, b as Site, c as Site),
        })
    }

    /// Fills a buffer of sets and gives the number of sites. Entries past it
    /// become empty. If refused, the buffer is left alone.
    pub fn fill(self, buffer: &mut [u64]) -> Result<usize, Refusal> {
        if buffer.len() != MOST_SITES {
            return Err(Refusal::Buffer);
        }
        let lists = self.lists()?;
        buffer.fill(0);
        for (entry, list) in buffer.iter_mut().zip(&lists) {
            *entry = set_of(list);
        }
        Ok(lists.len())
    }
}

/// Sites row by row; a site's set is its row and its column.
fn grid(side: Site) -> Vec<Vec<Site>> {
    let row = |site: Site| (site - 1) / side;
    let column = |site: Site| (site - 1) % side;
    let sites = 1..=side * side;
    sites
        .clone()
        .map(|n| sites.clone().filter(|&m| row(m) == row(n) || column(m) == column(n)).collect())
        .collect()
}

/// The set of every site on a board of side `q`, each list ascending.
fn billiard(q: Site) -> Vec<Vec<Site>> {
    (1..=(q * q - 1) / 2)
        .map(|n| {
            let mut path = billiard_path(q, n);
            path.sort_unstable();
            path
        })
        .collect()
}

/// Procedure `generate` of source document 000, Figure 6: the cells of the
/// broken billiard path of site `n`, in the order they are passed.
fn billiard_path(q: Site, n: Site) -> Vec<Site> {
    let count = (q * q - 1) / 2;
    let j = match 2 * n % q {
        0 => q,
        rest => rest,
    };
    let i = 1 + (2 * n - j) / q;
    // q = 2t + 1, so (q - 1) / 2 is t and (q + 1) / 2 is t + 1.
    let t = q / 2;
    let north_east = |x: Site| x - t;
    let north_west = |x: Site| x - (t + 1);
    let south_east = |x: Site| x + (t + 1);

    let mut x;
    let mut path = Vec::new();
    // i + j is odd and q + 1 even, so the two are never equal.
    if i + j < q + 1 {
        let twice = (i + j - 2) * q + 1;
        x = twice / 2;
        path.push(x);
        for k in 1..q {
            x = match k {
                k if k < j => north_east(x),
                k if k <= q - i => south_east(x),
                _ => north_east(x),
            };
            path.push(x);
        }
    } else {
        x = count - (2 * q - i - j - 1) / 2;
        path.push(x);
        for k in 1..q {
            x = match k {
                k if k <= q - i => north_east(x),
                k if k < j => north_west(x),
                _ => north_east(x),
            };
            path.push(x);
        }
    }
    path
}

/// The rows of the matrices M1, M2 and so on of source document 002, laid one
/// under the other.
fn plane(p: Site) -> Vec<Vec<Site>> {
    let first = |i: Site, j: Site| if j == 1 { 1 } else { (i - 1) * p + j };
    let shift = |x: Site, i: Site, j: Site| ((x - 2) * (j - 1) + (i - 1)) % p;
    let later = |x: Site, i: Site, j: Site| {
        if j == 1 {
            x
        } else {
            first(j, 2) + shift(x, i, j - 1)
        }
    };
    let mut rows = Vec::new();
    for i in 1..=p + 1 {
        rows.push((1..=p + 1).map(|j| first(i, j)).collect());
    }
    for x in 2..=p + 1 {
        for i in 1..=p {
            rows.push((1..=p + 1).map(|j| later(x, i, j)).collect());
        }
    }
    rows
}

/// Sites level by level, on a level row by row, in a row bay by bay. A site's
/// set is every site of its level and every site with its row and bay.
fn levels(a: Site, b: Site, c: Site) -> Vec<Vec<Site>> {
    let mut desks = Vec::new();
    for level in 1..=c {
        for row in 1..=a {
            desks.extend((1..=b).map(|bay| (row, bay, level)));
        }
    }
    let takes = |one: (Site, Site, Site), other: (Site, Site, Site)| {
        other.2 == one.2 || (other.0, other.1) == (one.0, one.1)
    };
    let set =
        |one| (1..).zip(&desks).filter(|(_, other)| takes(one, **other)).map(|(site, _)| site).collect();
    desks.iter().map(|&one| set(one)).collect()
}

#[cfg(test)]
mod tests {
    use super::super::setup;
    use super::*;

    /// Table 1 of source document 002, copied from the paper by hand.
    const TABLE_1: [[Site; 6]; 31] = [
        [1, 2, 3, 4, 5, 6],
        [1, 7, 8, 9, 10, 11],
        [1, 12, 13, 14, 15, 16],
        [1, 17, 18, 19, 20, 21],
        [1, 22, 23, 24, 25, 26],
        [1, 27, 28, 29, 30, 31],
        [2, 7, 12, 17, 22, 27],
        [2, 8, 13, 18, 23, 28],
        [2, 9, 14, 19, 24, 29],
        [2, 10, 15, 20, 25, 30],
        [2, 11, 16, 21, 26, 31],
        [3, 7, 13, 19, 25, 31],
        [3, 8, 14, 20, 26, 27],
        [3, 9, 15, 21, 22, 28],
        [3, 10, 16, 17, 23, 29],
        [3, 11, 12, 18, 24, 30],
        [4, 7, 14, 21, 23, 30],
        [4, 8, 15, 17, 24, 31],
        [4, 9, 16, 18, 25, 27],
        [4, 10, 12, 19, 26, 28],
        [4, 11, 13, 20, 22, 29],
        [5, 7, 15, 18, 26, 29],
        [5, 8, 16, 19, 22, 30],
        [5, 9, 12, 20, 23, 31],
        [5, 10, 13, 21, 24, 27],
        [5, 11, 14, 17, 25, 28],
        [6, 7, 16, 20, 24, 28],
        [6, 8, 12, 21, 25, 29],
        [6, 9, 13, 17, 26, 30],
        [6, 10, 14, 18, 22, 31],
        [6, 11, 15, 19, 23, 27],
    ];

    #[test]
    fn the_plane_of_order_5_is_table_1() {
        assert_eq!(Family::Plane(5).lists().unwrap(), TABLE_1);
    }

    #[test]
    fn the_plane_of_order_2_is_the_seven_lines() {
        let lines: [[Site; 3]; 7] =
            [[1, 2, 3], [1, 4, 5], [1, 6, 7], [2, 4, 6], [2, 5, 7], [3, 4, 7], [3, 5, 6]];
        assert_eq!(Family::Plane(2).lists().unwrap(), lines);
    }

    #[test]
    fn billiards_on_nine_are_figure_5() {
        assert_eq!(billiard_path(9, 11), [23, 19, 15, 11, 16, 21, 26, 22, 18]);
        assert_eq!(billiard_path(9, 34), [38, 34, 29, 24, 19, 15, 11, 7, 3]);
        let all = billiard(9);
        assert_eq!(all.len(), 40);
        assert_eq!(all[10], [11, 15, 16, 18, 19, 21, 22, 23, 26]);
        assert_eq!(all[33], [3, 7, 11, 15, 19, 24, 29, 34, 38]);
    }

    /// The scan has lost the lists of Figure 7. These were drawn by hand on
    /// the board of Figure 4's kind for q = 3.
    #[test]
    fn billiards_on_three_are_as_drawn() {
        let drawn: [[Site; 3]; 4] = [[1, 2, 3], [2, 3, 4], [1, 3, 4], [1, 2, 4]];
        assert_eq!(Family::Billiard(3).lists().unwrap(), drawn);
    }

    /// A ball rolling over the board, cell by cell, as section 4 of source
    /// document 000 tells it, without Figure 6's arithmetic on site numbers.
    fn rolled(q: i32, row: i32, column: i32) -> Vec<(i32, i32)> {
        let on_board = |(i, j): (i32, i32)| (1..=q).contains(&i) && (1..=q).contains(&j);
        // Back along the slope to the left side or the bottom.
        let mut cell = (row, column);
        while on_board((cell.0 + 1, cell.1 - 1)) {
            cell = (cell.0 + 1, cell.1 - 1);
        }
        let mut path = vec![cell];
        while cell != (row, column) {
            cell = (cell.0 - 1, cell.1 + 1);
            path.push(cell);
        }
        // The unbroken path has q cells: on along the slope to the top or the
        // right side, then off that side. Its rest, turned at the site, goes
        // first at a right angle, then along the slope again.
        let straight = if row + column < q + 1 { row - 1 } else { q - column };
        let rest = q - i32::try_from(path.len()).unwrap();
        let across = if row + column < q + 1 { (1, 1) } else { (-1, -1) };
        for _ in 0..rest - straight {
            cell = (cell.0 + across.0, cell.1 + across.1);
            path.push(cell);
        }
        for _ in 0..straight {
            cell = (cell.0 - 1, cell.1 + 1);
            path.push(cell);
        }
        assert!(path.iter().all(|&cell| on_board(cell)));
        path
    }

    #[test]
    fn billiards_follow_the_ball() {
        for q in [3, 5, 7, 9] {
            // Number the cells whose row and column add up to an odd number.
            let mut cells = Vec::new();
            for i in 1..=q {
                for j in 1..=q {
                    if (i + j) % 2 == 1 {
                        cells.push((i, j));
                    }
                }
            }
            let number = |cell| 1 + cells.iter().position(|&c| c == cell).unwrap() as Site;
            for &(i, j) in &cells {
                let path: Vec<Site> = rolled(q, i, j).into_iter().map(number).collect();
                assert_eq!(path, billiard_path(q as Site, number((i, j))), "q = {q}");
            }
        }
    }

    #[test]
    fn billiards_have_the_papers_properties() {
        for q in [3, 5, 7, 9] {
            let all = billiard(q);
            for (place, list) in all.iter().enumerate() {
                assert_eq!(list.len(), usize::from(q));
                assert!(list.contains(&(place as Site + 1)), "inclusion");
                assert!(list.windows(2).all(|pair| pair[0] < pair[1]));
                assert_eq!(all.iter().filter(|other| *other == list).count(), 1, "unique");
            }
        }
    }

    #[test]
    fn a_grid_of_three() {
        let lists = Family::Grid(3).lists().unwrap();
        assert_eq!(lists[0], [1, 2, 3, 4, 7]);
        assert_eq!(lists[4], [2, 4, 5, 6, 8]);
        assert_eq!(lists[8], [3, 6, 7, 8, 9]);
        assert_eq!(Family::Grid(1).lists().unwrap(), [[1]]);
    }

    /// Drawn by hand: two levels of two rows and two bays each. On the lower
    /// one stand the sites 1 2 / 3 4, on the upper one 5 6 / 7 8.
    #[test]
    fn levels_of_two_are_as_drawn() {
        let drawn: [[Site; 5]; 8] = [
            [1, 2, 3, 4, 5],
            [1, 2, 3, 4, 6],
            [1, 2, 3, 4, 7],
            [1, 2, 3, 4, 8],
            [1, 5, 6, 7, 8],
            [2, 5, 6, 7, 8],
            [3, 5, 6, 7, 8],
            [4, 5, 6, 7, 8],
        ];
        assert_eq!(Family::Levels(2, 2, 2).lists().unwrap(), drawn);
    }

    /// With three rows, two bays and five levels no two sides can be mistaken
    /// for each other.
    #[test]
    fn levels_of_three_sides() {
        let lists = Family::Levels(3, 2, 5).lists().unwrap();
        assert_eq!(lists.len(), 30);
        assert_eq!(lists[0], [1, 2, 3, 4, 5, 6, 7, 13, 19, 25]);
        assert_eq!(lists[9], [4, 7, 8, 9, 10, 11, 12, 16, 22, 28]);
        assert_eq!(lists[29], [6, 12, 18, 24, 25, 26, 27, 28, 29, 30]);
        // Rows and bays only number the places of a level.
        assert_eq!(lists, Family::Levels(2, 3, 5).lists().unwrap());
        assert_ne!(lists, Family::Levels(5, 2, 3).lists().unwrap());
    }

    /// The number of a site by the formula, and its set by going along the
    /// level and along the column through it.
    #[test]
    fn levels_are_numbered_by_the_formula() {
        let all = Family::all_levels();
        for family in &all {
            let &Family::Levels(a, b, c) = family else { panic!("{family:?}") };
            let lists = family.lists().unwrap();
            let number = |row, bay, level| (level - 1) * a * b + (row - 1) * b + bay;
            for (row, bay, level) in (1..=a)
                .flat_map(|row| (1..=b).flat_map(move |bay| (1..=c).map(move |level| (row, bay, level))))
            {
                let mut set = 0;
                for i in 1..=a {
                    for j in 1..=b {
                        set |= setup::bit(number(i, j, level) as Site);
                    }
                }
                for k in 1..=c {
                    set |= setup::bit(number(row, bay, k) as Site);
                }
                let site = number(row, bay, level) as usize;
                assert_eq!(lists[site - 1], setup::members(set), "{family:?} site {site}");
                assert_eq!(lists[site - 1].len() as u64, a * b + c - 1);
            }
        }
    }

    /// Every triple once, counted over the divisors of each product.
    #[test]
    fn every_product_of_at_most_31_is_there() {
        let mut count = 0;
        for n in 1..=31 {
            for a in (1..=n).filter(|a| n % a == 0) {
                count += (1..=n / a).filter(|b| n / a % b == 0).count();
            }
        }
        let all = Family::all_levels();
        assert_eq!(all.len(), count);
        assert!(all.iter().enumerate().all(|(place, family)| !all[..place].contains(family)));
        for sides in [(1, 1, 31), (1, 31, 1), (31, 1, 1), (1, 2, 15), (5, 3, 2), (3, 3, 3)] {
            assert!(all.contains(&Family::Levels(sides.0, sides.1, sides.2)), "{sides:?}");
        }
    }

    #[test]
    fn every_family_passes_setup() {
        for family in Family::all() {
            let mut buffer = [u64::MAX; MOST_SITES];
            let n = family.fill(&mut buffer).unwrap();
            assert_eq!(setup::judge(n, &buffer), Ok(()), "{family:?}");
            assert!(buffer[n..].iter().all(|&set| set == 0));
            let expected = match family {
                Family::Grid(s) => s * s,
                Family::Billiard(q) => (q * q - 1) / 2,
                Family::Plane(p) => p * (p + 1) + 1,
                Family::Levels(a, b, c) => a * b * c,
            };
            assert_eq!(n as u64, expected);
            assert!(family.lists().unwrap().iter().all(|list| list.is_sorted()));
        }
    }

    #[test]
    fn other_parameters_and_buffers_are_refused() {
        let mut buffer = [7; MOST_SITES];
        for family in [
            Family::Grid(0),
            Family::Grid(6),
            Family::Billiard(1),
            Family::Billiard(4),
            Family::Billiard(9),
            Family::Plane(1),
            Family::Plane(4),
            Family::Plane(7),
            Family::Grid(u64::MAX),
            Family::Grid((1 << 16) + 3),
            Family::Levels(0, 1, 1),
            Family::Levels(1, 0, 1),
            Family::Levels(1, 1, 0),
            Family::Levels(0, u64::MAX, u64::MAX),
            Family::Levels(4, 4, 2),
            Family::Levels(1, 1, 32),
            Family::Levels(1, 32, 1),
            Family::Levels(32, 1, 1),
            Family::Levels(1 << 32, 1 << 32, 1),
            // 2 to the power 65, plus 1.
            Family::Levels(3, 0xaaaa_aaaa_aaaa_aaab, 1),
            Family::Levels(u64::MAX, u64::MAX, 1),
            Family::Levels(u64::MAX, u64::MAX, u64::MAX),
        ] {
            assert_eq!(family.fill(&mut buffer), Err(Refusal::Parameter));
            assert_eq!(family.fill(&mut buffer[..30]), Err(Refusal::Buffer));
        }
        assert_eq!(buffer, [7; MOST_SITES]);
    }

    #[test]
    fn names_take_their_number_of_parameters() {
        assert_eq!(Family::named(b"grid", &[3]), Some(Family::Grid(3)));
        assert_eq!(Family::named(b"billiard", &[4]), Some(Family::Billiard(4)));
        assert_eq!(Family::named(b"plane", &[5]), Some(Family::Plane(5)));
        assert_eq!(Family::named(b"levels", &[2, 3, 5]), Some(Family::Levels(2, 3, 5)));
        for name in [&b"grid"[..], b"billiard", b"plane", b"levels", b"", b"cube"] {
            for count in [0, 2, 4] {
                assert_eq!(Family::named(name, &vec![1; count]), None);
            }
        }
        assert_eq!(Family::named(b"grid", &[1, 1, 1]), None);
        assert_eq!(Family::named(b"levels", &[1]), None);
        assert_eq!(Family::named(b"Grid", &[1]), None);
    }
}
