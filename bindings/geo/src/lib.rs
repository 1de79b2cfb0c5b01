//! The geometries of geo-types for [`morelturret`]: lines of a build from lines, chains and polygons, members of a file from a MultiLineString and back,
//! a window from a Rect. Coordinates are copied as they are; whether they obey the coordinate rule is asked by the call that takes them.
//!
//! ```
//! use geo_types::{line_string, Rect};
//! use morelturret::{Mode, Tables};
//! use morelturret_geo::{segment, to_lines, window};
//!
//! let orbit = line_string![(x: 0.0, y: 0.0), (x: 4.0, y: 3.0), (x: 4.0, y: 0.0), (x: 0.0, y: 3.0)];
//! let owned = to_lines(&orbit);
//! let tables = Tables::planned(owned.lines(), Mode::Covering)?;
//! assert!(tables.pairs(owned.lines(), 16)?.any(|pair| pair == (0, 2)));
//!
//! let season = window(Rect::new((3.5, 1.0), (5.0, 2.0)));
//! assert_eq!(tables.window(owned.lines(), season)?, [0, 1, 2]);
//! assert_eq!(segment(owned.lines(), 1), Some(orbit.lines().nth(1).unwrap()));
//! # Ok::<(), morelturret::Refusal>(())
//! ```

#![forbid(unsafe_code)]
#![deny(missing_docs)]

use geo_types::{Line, LineString, MultiLineString, MultiPolygon, Polygon, Rect};
use morelturret::{LineVec, Lines, Members, Window};

/// What has segments, one after another: a line, a chain, many chains, the rings of a polygon.
pub trait Segments {
    /// Hands each segment on, in order.
    fn each(&self, take: &mut dyn FnMut(Line<f64>));
}

impl Segments for Line<f64> {
    fn each(&self, take: &mut dyn FnMut(Line<f64>)) {
        take(*self);
    }
}

impl Segments for LineString<f64> {
    fn each(&self, take: &mut dyn FnMut(Line<f64>)) {
        self.lines().for_each(take);
    }
}

impl Segments for MultiLineString<f64> {
    fn each(&self, take: &mut dyn FnMut(Line<f64>)) {
        self.0.each(take);
    }
}

/// The outer ring, then the inner ones.
impl Segments for Polygon<f64> {
    fn each(&self, take: &mut dyn FnMut(Line<f64>)) {
        self.exterior().each(take);
        self.interiors().each(take);
    }
}

impl Segments for MultiPolygon<f64> {
    fn each(&self, take: &mut dyn FnMut(Line<f64>)) {
        self.0.each(take);
    }
}

impl<S: Segments> Segments for [S] {
    fn each(&self, take: &mut dyn FnMut(Line<f64>)) {
        self.iter().for_each(|part| part.each(take));
    }
}

impl<S: Segments> Segments for Vec<S> {
    fn each(&self, take: &mut dyn FnMut(Line<f64>)) {
        self.as_slice().each(take);
    }
}

/// The segments as lines of a build, numbered from 0 in their order. None joins two parts.
pub fn to_lines<S: Segments + ?Sized>(parts: &S) -> LineVec {
    let mut lines = LineVec::new();
    parts.each(&mut |line| lines.push([line.start.x, line.start.y, line.end.x, line.end.y]));
    lines
}

/// Line i of lines, as a segment of geo-types; none where there is no such line.
pub fn segment(lines: Lines, i: usize) -> Option<Line<f64>> {
    lines.get(i).map(|[start_x, start_y, end_x, end_y]| Line::new((start_x, start_y), (end_x, end_y)))
}

/// The chains as members of one file. One of no points, or of more than 1,024, is refused by 3 where they are written or made lines.
pub fn to_members(chains: &MultiLineString<f64>) -> Members {
    let mut members = Members::default();
    chains.0.iter().for_each(|chain| members.push(chain.points().map(|point| (point.x(), point.y()))));
    members
}

/// The members of a file as chains. Points that the lengths do not reach are left out.
pub fn from_members(members: &Members) -> MultiLineString<f64> {
    let mut points = members.x.iter().zip(&members.y).map(|(&x, &y)| (f64::from_bits(x), f64::from_bits(y)));
    MultiLineString(members.lengths.iter().map(|&length| LineString::from_iter(points.by_ref().take(length as usize))).collect())
}

/// The rectangle as a window, its corners in order.
pub fn window(rect: Rect<f64>) -> Window {
    Window { low_x: rect.min().x, low_y: rect.min().y, high_x: rect.max().x, high_y: rect.max().y }
}

#[cfg(test)]
mod tests {
    use super::*;
    use geo_types::{line_string, polygon};

    fn coordinates(lines: Lines) -> Vec<[f64; 4]> {
        (0..lines.len()).filter_map(|i| lines.get(i)).collect()
    }

    #[test]
    fn no_line_joins_two_chains() {
        let chains = MultiLineString(vec![
            line_string![(x: 0.0, y: 0.0), (x: 1.0, y: 0.0), (x: 1.0, y: 1.0)],
            LineString(vec![]),
            line_string![(x: 5.0, y: 5.0)],
            line_string![(x: -0.0, y: 2.0), (x: 3.0, y: f64::NAN)],
        ]);
        let lines = to_lines(&chains);
        let all = coordinates(lines.lines());
        assert_eq!(all[..2], [[0.0, 0.0, 1.0, 0.0], [1.0, 0.0, 1.0, 1.0]]);
        assert_eq!(all.len(), 3);
        assert!(all[2][0].is_sign_negative() && all[2][3].is_nan());
        assert_eq!(segment(lines.lines(), 3), None);
    }

    #[test]
    fn rings_follow_one_another() {
        let holed = polygon!(
            exterior: [(x: 0.0, y: 0.0), (x: 9.0, y: 0.0), (x: 0.0, y: 9.0)],
            interiors: [[(x: 1.0, y: 1.0), (x: 2.0, y: 1.0), (x: 1.0, y: 2.0)]],
        );
        let one = coordinates(to_lines(&holed).lines());
        assert_eq!(one.len(), 6);
        assert_eq!((one[2], one[3]), ([0.0, 9.0, 0.0, 0.0], [1.0, 1.0, 2.0, 1.0]));
        let two = coordinates(to_lines(&MultiPolygon(vec![holed.clone(), holed])).lines());
        assert_eq!((&two[..6], &two[6..]), (&one[..], &one[..]));
    }

    #[test]
    fn members_are_the_chains_and_come_back() {
        let chains = MultiLineString(vec![line_string![(x: 0.5, y: -0.0), (x: 1e9, y: 2.0)], line_string![(x: 3.0, y: 4.0)]]);
        let members = to_members(&chains);
        assert_eq!(members.lengths, [2, 1]);
        assert_eq!(members.y[0], (-0.0f64).to_bits());
        let read = Members::read(&members.write().unwrap()).unwrap();
        assert_eq!(read, members);
        assert_eq!(from_members(&read), chains);
        assert_eq!(coordinates(read.lines().unwrap().lines()), coordinates(to_lines(&chains).lines()));
    }

    #[test]
    fn corners_of_a_window_are_in_order() {
        let w = window(Rect::new((5.0, -1.0), (3.0, 2.0)));
        assert_eq!((w.low_x, w.low_y, w.high_x, w.high_y), (3.0, -1.0, 5.0, 2.0));
    }
}
