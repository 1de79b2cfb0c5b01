//! GEOS, by its C interface. It is loaded where Debian's libgeos-c1v5, which libgeos-dev brings, is installed.

use std::ffi::{c_char, c_int, c_uint, c_void, CString};
use std::mem::transmute_copy;

pub type Pointer = *mut c_void;

extern "C" {
    fn dlopen(file: *const c_char, flags: c_int) -> Pointer;
    fn dlsym(library: Pointer, name: *const c_char) -> Pointer;
}

/// The functions of GEOS's C interface, and its handle.
pub struct Geos {
    handle: Pointer,
    sequence: unsafe extern "C" fn(Pointer, c_uint, c_uint) -> Pointer,
    set: unsafe extern "C" fn(Pointer, Pointer, c_uint, f64, f64) -> c_int,
    line: unsafe extern "C" fn(Pointer, Pointer) -> Pointer,
    tree: unsafe extern "C" fn(Pointer, usize) -> Pointer,
    insert: unsafe extern "C" fn(Pointer, Pointer, Pointer, Pointer),
    query: unsafe extern "C" fn(Pointer, Pointer, Pointer, unsafe extern "C" fn(Pointer, Pointer), Pointer),
    fell: unsafe extern "C" fn(Pointer, Pointer),
    free: unsafe extern "C" fn(Pointer, Pointer),
    prepare: unsafe extern "C" fn(Pointer, Pointer) -> Pointer,
    unprepare: unsafe extern "C" fn(Pointer, Pointer),
    intersects: Intersects,
}

type Intersects = unsafe extern "C" fn(Pointer, Pointer, Pointer) -> c_char;

/// A tree of lines, each known by its number, with the lines.
pub struct Tree<'a> {
    geos: &'a Geos,
    tree: Pointer,
    segments: Vec<Pointer>,
}

impl Geos {
    /// None, which is said, where there is no such library.
    pub fn load() -> Option<Self> {
        const NOW: c_int = 2;
        // SAFETY: the names and types are those of geos_c.h, and the library is never closed.
        unsafe {
            let library = dlopen(c"libgeos_c.so.1".as_ptr(), NOW);
            if library.is_null() {
                println!("  there is no libgeos_c.so.1 (Debian's libgeos-dev): the port is timed alone");
                return None;
            }
            fn function<F>(library: Pointer, name: &str) -> Option<F> {
                let name = CString::new(name).unwrap();
                // SAFETY: as above; F is a function pointer, which has the size of a pointer.
                let found = unsafe { dlsym(library, name.as_ptr()) };
                (!found.is_null()).then(|| unsafe { transmute_copy(&found) })
            }
            let init: unsafe extern "C" fn() -> Pointer = function(library, "GEOS_init_r")?;
            Some(Geos {
                handle: init(),
                sequence: function(library, "GEOSCoordSeq_create_r")?,
                set: function(library, "GEOSCoordSeq_setXY_r")?,
                line: function(library, "GEOSGeom_createLineString_r")?,
                tree: function(library, "GEOSSTRtree_create_r")?,
                insert: function(library, "GEOSSTRtree_insert_r")?,
                query: function(library, "GEOSSTRtree_query_r")?,
                fell: function(library, "GEOSSTRtree_destroy_r")?,
                free: function(library, "GEOSGeom_destroy_r")?,
                prepare: function(library, "GEOSPrepare_r")?,
                unprepare: function(library, "GEOSPreparedGeom_destroy_r")?,
                intersects: function(library, "GEOSPreparedIntersects_r")?,
            })
        }
    }

    /// A line from one point to another, which is never freed but as one of a tree.
    pub fn segment(&self, [x, y, u, v]: [f64; 4]) -> Pointer {
        // SAFETY: a sequence of two points of two coordinates, which the line takes over.
        unsafe {
            let points = (self.sequence)(self.handle, 2, 2);
            (self.set)(self.handle, points, 0, x, y);
            (self.set)(self.handle, points, 1, u, v);
            (self.line)(self.handle, points)
        }
    }

    /// The tree of all lines. GEOS orders it at the first question.
    pub fn tree(&self, lines: &[[f64; 4]]) -> Tree<'_> {
        // SAFETY: 10 entries to a node, as GEOS advises.
        let tree = unsafe { (self.tree)(self.handle, 10) };
        let segments: Vec<Pointer> = lines.iter().map(|line| self.segment(*line)).collect();
        for (i, segment) in segments.iter().enumerate() {
            // SAFETY: the number stands in the pointer and is never followed; the line lives as long as the tree.
            unsafe { (self.insert)(self.handle, tree, *segment, i as Pointer) };
        }
        Tree { geos: self, tree, segments }
    }
}

impl Tree<'_> {
    pub fn line(&self, number: usize) -> Pointer {
        self.segments[number]
    }

    /// The numbers of the lines whose boxes overlap the window, in the tree's order.
    pub fn ask(&self, window: Pointer, found: &mut Vec<u32>) {
        unsafe extern "C" fn put(item: Pointer, found: Pointer) {
            // SAFETY: what `query` is handed below.
            unsafe { (*found.cast::<Vec<u32>>()).push(item as usize as u32) };
        }
        found.clear();
        // SAFETY: the vector lives through the call.
        unsafe { (self.geos.query)(self.geos.handle, self.tree, window, put, (found as *mut Vec<u32>).cast()) };
    }

    /// How many pairs of lines have boxes that overlap: each line is asked for, and those of a higher number are counted.
    pub fn overlaps(&self) -> u64 {
        struct Asked {
            line: usize,
            count: u64,
        }
        unsafe extern "C" fn count(item: Pointer, asked: Pointer) {
            // SAFETY: what `query` is handed below.
            let asked = unsafe { &mut *asked.cast::<Asked>() };
            asked.count += (asked.line < item as usize) as u64;
        }
        let mut asked = Asked { line: 0, count: 0 };
        for (line, &segment) in self.segments.iter().enumerate() {
            asked.line = line;
            // SAFETY: what is asked lives through the call.
            unsafe { (self.geos.query)(self.geos.handle, self.tree, segment, count, (&mut asked as *mut Asked).cast()) };
        }
        asked.count
    }

    /// The pairs of lines that GEOS calls intersecting, the lower number first: each line is prepared, and tested with the lines of a higher number whose
    /// boxes overlap its own. Answers how many were tested.
    pub fn crossings(&self, pairs: &mut Vec<(u32, u32)>) -> usize {
        struct Asked<'a> {
            tree: &'a Tree<'a>,
            line: usize,
            prepared: Pointer,
            tested: usize,
            pairs: &'a mut Vec<(u32, u32)>,
        }
        unsafe extern "C" fn test(item: Pointer, asked: Pointer) {
            // SAFETY: what `query` is handed below.
            let asked = unsafe { &mut *asked.cast::<Asked>() };
            let (other, geos) = (item as usize, asked.tree.geos);
            if other <= asked.line {
                return;
            }
            asked.tested += 1;
            // SAFETY: the prepared line and the other one both live.
            if unsafe { (geos.intersects)(geos.handle, asked.prepared, asked.tree.segments[other]) } == 1 {
                asked.pairs.push((asked.line as u32, other as u32));
            }
        }
        pairs.clear();
        let geos = self.geos;
        let mut asked = Asked { tree: self, line: 0, prepared: std::ptr::null_mut(), tested: 0, pairs };
        for (line, &segment) in self.segments.iter().enumerate() {
            asked.line = line;
            // SAFETY: what is asked lives through the call, and the prepared line is freed once.
            unsafe {
                asked.prepared = (geos.prepare)(geos.handle, segment);
                (geos.query)(geos.handle, self.tree, segment, test, (&mut asked as *mut Asked).cast());
                (geos.unprepare)(geos.handle, asked.prepared);
            }
        }
        asked.tested
    }
}

impl Drop for Tree<'_> {
    fn drop(&mut self) {
        // SAFETY: each is freed once, the lines after the tree that knows them.
        unsafe {
            (self.geos.fell)(self.geos.handle, self.tree);
            self.segments.iter().for_each(|s| (self.geos.free)(self.geos.handle, *s));
        }
    }
}
