//! Libraries with the C interface: the proved one, linked as a static library, and
//! another build of it, loaded as a shared one.

use crate::harness::plans::small_plans::star;
use crate::interface::{
    Acts, Checker, CompareFields, EveryListFields, ExplainFields, FigureFields, GradeFields, Handed, Lent,
    ListFields, RunFields, SizeFields, VerdictBuffers, VerdictFields,
};
use crate::oracle::plan::STEPPING;
use std::ffi::{c_char, c_int, c_void, CStr, CString};
use std::mem::transmute;

/// Declares the functions of the C interface, each of which returns its refusal number,
/// and the library that has them.
macro_rules! functions {
    ($(fn $name:ident($($argument:ident: $type:ty),* $(,)?);)*) => {
        mod linked {
            extern "C" {
                $(pub fn $name($($argument: $type),*) -> u8;)*
            }
        }

        /// A library; an older build may lack functions. Each pointer handed over comes
        /// from a slice or a reference that lives through the call, with that slice's
        /// length.
        #[derive(Clone, Copy)]
        pub struct Library {
            $($name: Option<unsafe extern "C" fn($($type),*) -> u8>,)*
        }

        impl Library {
            /// The library that this program is linked with.
            pub fn linked() -> Self {
                Library { $($name: Some(linked::$name),)* }
            }

            /// The library whose functions are found by name, at null if there is none.
            fn found(find: impl Fn(&CString) -> *mut c_void) -> Self {
                Library { $($name: {
                    let name = CString::new(stringify!($name)).expect("a name without a byte 0");
                    // SAFETY: a function of this name has this type in every build that the
                    // function is called of, and null is none.
                    unsafe { transmute::<*mut c_void, Option<unsafe extern "C" fn($($type),*) -> u8>>(find(&name)) }
                },)* }
            }
        }
    };
}

functions! {
    fn rrp_check(plan: *const u8, plan_len: usize);

    fn rrp_size(plan: *const u8, plan_len: usize, routers: *mut u64, lists: *mut u64);

    fn rrp_list(plan: *const u8, plan_len: usize, list: usize, start: *mut u64, count: *mut u64);

    fn rrp_compare(
        plan: *const u8,
        plan_len: usize,
        router: usize,
        first: usize,
        second: usize,
        first_direct: u8,
        second_direct: u8,
        better: *mut u8,
        has_margin: *mut u8,
        margin: *mut i64,
    );

    fn rrp_relies(plan: *const u8, plan_len: usize, list: usize, router: usize, other: usize, relies: *mut u8);

    fn rrp_explain(
        plan: *const u8,
        plan_len: usize,
        list: usize,
        router: usize,
        other: usize,
        relies: *mut u8,
        code: *mut u8,
        offer: *mut u64,
        has_own: *mut u8,
        own: *mut u64,
        margin: *mut i64,
    );

    fn rrp_verdict(
        plan: *const u8,
        plan_len: usize,
        list: usize,
        labels: *mut u8,
        labels_len: usize,
        ranks: *mut u8,
        ranks_len: usize,
        table: *mut u8,
        table_len: usize,
        cycle: *mut u8,
        cycle_len: usize,
        stable: *mut u8,
        size: *mut u64,
    );

    fn rrp_steady(plan: *const u8, plan_len: usize, list: usize, out: *mut u8, out_len: usize, count: *mut u64);

    fn rrp_hop_set(plan: *const u8, plan_len: usize, list: usize, set: *mut u64);

    fn rrp_grade(plan: *const u8, plan_len: usize, list: usize, grade: *mut u8, rounds: *mut u64);

    fn rrp_figures(
        plan: *const u8,
        plan_len: usize,
        by_rank: *mut u8,
        by_rank_len: usize,
        by_router: *mut u8,
        by_router_len: usize,
        stable: *mut u64,
        suspect: *mut u64,
        has_highest: *mut u8,
        highest: *mut u64,
    );

    fn rrp_every_list(
        plan: *const u8,
        plan_len: usize,
        answer: *mut u8,
        list: *mut u8,
        list_len: usize,
        count: *mut u64,
    );

    fn rrp_activate(plan: *const u8, plan_len: usize, list: usize, router: usize, table: *mut u8, table_len: usize);

    fn rrp_run(
        plan: *const u8,
        plan_len: usize,
        list: usize,
        sequence: *const u8,
        sequence_len: usize,
        limit: u64,
        table: *mut u8,
        table_len: usize,
        applied: *mut u64,
        rounds: *mut u64,
        exhausted: *mut u8,
    );

    fn rrp_widen(plan: *const u8, plan_len: usize, out: *mut u8, out_len: usize, length: *mut u64);

    fn rrp_narrow(plan: *const u8, plan_len: usize, out: *mut u8, out_len: usize, length: *mut u64);

    fn rrp_distances(n: usize, links: *const u8, links_len: usize, out: *mut u8, out_len: usize);
}

extern "C" {
    fn dlopen(path: *const c_char, flags: c_int) -> *mut c_void;
    fn dlsym(library: *mut c_void, name: *const c_char) -> *mut c_void;
    fn dlerror() -> *const c_char;
}

/// All of the library's own references are bound before the first call.
const RTLD_NOW: c_int = 2;

/// What a call says that the library does not have.
const MISSING: &str = "a function that the build has";

impl Library {
    /// The shared library of this path, which stays loaded.
    pub fn loaded(path: &str) -> Result<Self, String> {
        let path = CString::new(path).map_err(|_| "a path with a byte 0")?;
        // SAFETY: the path is a C string, and what loading runs is that library's own.
        let library = unsafe { dlopen(path.as_ptr(), RTLD_NOW) };
        if library.is_null() {
            // SAFETY: after a failure there is a message, a C string.
            return Err(unsafe { CStr::from_ptr(dlerror()) }.to_string_lossy().into_owned());
        }
        // SAFETY: the library is loaded, and the name is a C string.
        let mut library = Library::found(|name| unsafe { dlsym(library, name.as_ptr()) });
        // A build that does not read role 4 has a comparison of this name without flags.
        if library.check(&star(0, &[STEPPING]).bytes()) != 0 {
            library.rrp_compare = None;
        }
        Ok(library)
    }

    /// Whether the library has the comparison that takes flags.
    pub fn compares(&self) -> bool {
        self.rrp_compare.is_some()
    }

    /// Whether the library lists the tables that no act changes.
    pub fn lists_steady(&self) -> bool {
        self.rrp_steady.is_some()
    }

    /// Whether the library names smallest sets of routers to give the hop step.
    pub fn names_hop_sets(&self) -> bool {
        self.rrp_hop_set.is_some()
    }

    /// Whether the library grades lists.
    pub fn grades(&self) -> bool {
        self.rrp_grade.is_some()
    }

    /// Whether the library tells of every list.
    pub fn tells_of_every_list(&self) -> bool {
        self.rrp_every_list.is_some()
    }

    /// Whether the library gives the figures of a plan.
    pub fn gives_figures(&self) -> bool {
        self.rrp_figures.is_some()
    }
}

impl Checker for Library {
    fn check(&mut self, plan: &[u8]) -> u8 {
        // SAFETY: pointer and length are those of one slice.
        unsafe { self.rrp_check.expect(MISSING)(plan.as_ptr(), plan.len()) }
    }

    fn size(&mut self, plan: &[u8], fields: &mut SizeFields) -> u8 {
        // SAFETY: as above; the results are two variables of their own.
        unsafe { self.rrp_size.expect(MISSING)(plan.as_ptr(), plan.len(), &mut fields.routers, &mut fields.lists) }
    }

    fn list(&mut self, plan: &[u8], list: usize, fields: &mut ListFields) -> u8 {
        // SAFETY: as above.
        unsafe {
            self.rrp_list.expect(MISSING)(plan.as_ptr(), plan.len(), list, &mut fields.start, &mut fields.count)
        }
    }

    fn compare(&mut self, plan: &[u8], router: usize, routes: [Handed; 2], fields: &mut CompareFields) -> u8 {
        let [first, second] = routes;
        // SAFETY: as above.
        unsafe {
            self.rrp_compare.expect(MISSING)(
                plan.as_ptr(),
                plan.len(),
                router,
                first.egress,
                second.egress,
                first.direct,
                second.direct,
                &mut fields.better.value,
                &mut fields.has_margin.value,
                &mut fields.margin.value,
            )
        }
    }

    fn relies(&mut self, plan: &[u8], list: usize, pair: (usize, usize), relies: &mut u8) -> u8 {
        // SAFETY: as above.
        unsafe { self.rrp_relies.expect(MISSING)(plan.as_ptr(), plan.len(), list, pair.0, pair.1, relies) }
    }

    fn explain(&mut self, plan: &[u8], list: usize, pair: (usize, usize), fields: &mut ExplainFields) -> u8 {
        // SAFETY: as above.
        unsafe {
            self.rrp_explain.expect(MISSING)(
                plan.as_ptr(),
                plan.len(),
                list,
                pair.0,
                pair.1,
                &mut fields.relies.value,
                &mut fields.code.value,
                &mut fields.offer.value,
                &mut fields.has_own.value,
                &mut fields.own.value,
                &mut fields.margin.value,
            )
        }
    }

    fn verdict(&mut self, plan: &[u8], list: usize, lent: VerdictBuffers, fields: &mut VerdictFields) -> u8 {
        // SAFETY: as above; the four buffers do not overlap.
        unsafe {
            self.rrp_verdict.expect(MISSING)(
                plan.as_ptr(),
                plan.len(),
                list,
                lent.labels.as_mut_ptr(),
                lent.labels.len(),
                lent.ranks.as_mut_ptr(),
                lent.ranks.len(),
                lent.table.as_mut_ptr(),
                lent.table.len(),
                lent.cycle.as_mut_ptr(),
                lent.cycle.len(),
                &mut fields.stable.value,
                &mut fields.size,
            )
        }
    }

    fn steady(&mut self, plan: &[u8], list: usize, out: &mut [u8], count: &mut Lent<u64>) -> u8 {
        let steady = self.rrp_steady.expect(MISSING);
        // SAFETY: as above.
        unsafe { steady(plan.as_ptr(), plan.len(), list, out.as_mut_ptr(), out.len(), &mut count.value) }
    }

    fn hop_set(&mut self, plan: &[u8], list: usize, set: &mut Lent<u64>) -> u8 {
        // SAFETY: as above.
        unsafe { self.rrp_hop_set.expect(MISSING)(plan.as_ptr(), plan.len(), list, &mut set.value) }
    }

    fn grade(&mut self, plan: &[u8], list: usize, fields: &mut GradeFields) -> u8 {
        let grade = self.rrp_grade.expect(MISSING);
        // SAFETY: as above.
        unsafe { grade(plan.as_ptr(), plan.len(), list, &mut fields.grade.value, &mut fields.rounds.value) }
    }

    fn figures(&mut self, plan: &[u8], by_rank: &mut [u8], by_router: &mut [u8], fields: &mut FigureFields) -> u8 {
        // SAFETY: as above; the two buffers do not overlap.
        unsafe {
            self.rrp_figures.expect(MISSING)(
                plan.as_ptr(),
                plan.len(),
                by_rank.as_mut_ptr(),
                by_rank.len(),
                by_router.as_mut_ptr(),
                by_router.len(),
                &mut fields.stable.value,
                &mut fields.suspect.value,
                &mut fields.has_highest.value,
                &mut fields.highest.value,
            )
        }
    }

    fn every_list(&mut self, plan: &[u8], list: &mut [u8], fields: &mut EveryListFields) -> u8 {
        // SAFETY: as above.
        unsafe {
            self.rrp_every_list.expect(MISSING)(
                plan.as_ptr(),
                plan.len(),
                &mut fields.answer.value,
                list.as_mut_ptr(),
                list.len(),
                &mut fields.count.value,
            )
        }
    }

    fn activate(&mut self, plan: &[u8], list: usize, router: usize, table: &mut [u8]) -> u8 {
        // SAFETY: as above.
        unsafe {
            self.rrp_activate.expect(MISSING)(
                plan.as_ptr(),
                plan.len(),
                list,
                router,
                table.as_mut_ptr(),
                table.len(),
            )
        }
    }

    fn run(&mut self, plan: &[u8], list: usize, acts: Acts, table: &mut [u8], fields: &mut RunFields) -> u8 {
        // SAFETY: as above.
        unsafe {
            self.rrp_run.expect(MISSING)(
                plan.as_ptr(),
                plan.len(),
                list,
                acts.sequence.as_ptr(),
                acts.sequence.len(),
                acts.limit,
                table.as_mut_ptr(),
                table.len(),
                &mut fields.applied,
                &mut fields.rounds,
                &mut fields.exhausted.value,
            )
        }
    }

    fn widen(&mut self, plan: &[u8], out: &mut [u8], length: &mut Lent<u64>) -> u8 {
        let widen = self.rrp_widen.expect(MISSING);
        // SAFETY: as above.
        unsafe { widen(plan.as_ptr(), plan.len(), out.as_mut_ptr(), out.len(), &mut length.value) }
    }

    fn narrow(&mut self, plan: &[u8], out: &mut [u8], length: &mut Lent<u64>) -> u8 {
        let narrow = self.rrp_narrow.expect(MISSING);
        // SAFETY: as above.
        unsafe { narrow(plan.as_ptr(), plan.len(), out.as_mut_ptr(), out.len(), &mut length.value) }
    }

    fn distances(&mut self, n: usize, links: &[u8], out: &mut [u8]) -> u8 {
        // SAFETY: as above.
        unsafe { self.rrp_distances.expect(MISSING)(n, links.as_ptr(), links.len(), out.as_mut_ptr(), out.len()) }
    }
}
