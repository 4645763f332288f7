//! The calls of docs/ABI.md that are timed, on one model in bytes.
extern "C" {
    pub fn dw_root(x: f64) -> f64;
    pub fn dw_sphere(cx: f64, cy: f64, cz: f64, radius: f64, x: f64, y: f64, z: f64) -> f64;
    pub fn dw_torus(cx: f64, cy: f64, cz: f64, r: f64, t: f64, x: f64, y: f64, z: f64) -> f64;
    fn dw_new(m: *mut u8, n: usize, out: *mut u8, outs: usize) -> u32;
    fn dw_add_constant(m: *mut u8, n: usize, t: *const u8, ts: usize, v: u64, out: *mut u8, outs: usize) -> u32;
    fn dw_add_function(m: *mut u8, n: usize, t: *const u8, ts: usize, kind: u64, a: u64, b: u64, c: u64, d: u64, e: u64, out: *mut u8, outs: usize) -> u32;
    fn dw_add_operation(m: *mut u8, n: usize, t: *const u8, ts: usize, kind: u64, a: u64, b: u64, c: u64, d: u64, e: u64, given: u64, p: *const u8, ps: usize, q: *const u8, qs: usize, r: *const u8, rs: usize, out: *mut u8, outs: usize) -> u32;
    fn dw_add_component(m: *mut u8, n: usize, t: *const u8, ts: usize, kind: u64, a: u64, b: u64, c: u64, d: u64, e: u64, out: *mut u8, outs: usize) -> u32;
    fn dw_add_input(m: *mut u8, n: usize, t: *const u8, ts: usize, s: *const u8, ss: usize, i: u64, out: *mut u8, outs: usize) -> u32;
    fn dw_remove_input(m: *mut u8, n: usize, t: *const u8, ts: usize, i: u64, out: *mut u8, outs: usize) -> u32;
    fn dw_remove_component(m: *mut u8, n: usize, t: *const u8, ts: usize, out: *mut u8, outs: usize) -> u32;
    fn dw_rename_component(m: *mut u8, n: usize, t: *const u8, ts: usize, u: *const u8, us: usize, out: *mut u8, outs: usize) -> u32;
    fn dw_set_parameter(m: *mut u8, n: usize, t: *const u8, ts: usize, name: *const u8, names: usize, kind: u64, a: u64, b: u64, c: u64, out: *mut u8, outs: usize) -> u32;
    fn dw_compile(m: *const u8, n: usize, t: *const u8, ts: usize, order: *mut u8, orders: usize, out: *mut u8, outs: usize) -> u32;
    fn dw_evaluate_at(m: *const u8, n: usize, t: *const u8, ts: usize, x: u64, y: u64, z: u64, out: *mut u8, outs: usize) -> u32;
}

pub const SIZE: usize = 27_200;

/// A model in its bytes, with the slices that calls write into.
#[derive(Clone)]
pub struct Ours {
    pub bytes: Vec<u8>,
    order: Vec<u8>,
    out: [u8; 64],
}

impl Ours {
    pub fn new() -> Self {
        let mut m = Ours { bytes: vec![0; SIZE], order: vec![0; 2560], out: [0; 64] };
        let code = unsafe { dw_new(m.bytes.as_mut_ptr(), SIZE, m.out.as_mut_ptr(), 64) };
        assert_eq!(code, 0);
        m
    }

    pub fn number(&self) -> f64 {
        f64::from_bits(u64::from_le_bytes(self.out[56..64].try_into().unwrap()))
    }

    pub fn add_constant(&mut self, t: &str, v: f64) -> u32 {
        unsafe { dw_add_constant(self.bytes.as_mut_ptr(), SIZE, t.as_ptr(), t.len(), v.to_bits(), self.out.as_mut_ptr(), 64) }
    }

    pub fn add_function(&mut self, t: &str, kind: u64, k: [f64; 5]) -> u32 {
        let [a, b, c, d, e] = k.map(f64::to_bits);
        unsafe { dw_add_function(self.bytes.as_mut_ptr(), SIZE, t.as_ptr(), t.len(), kind, a, b, c, d, e, self.out.as_mut_ptr(), 64) }
    }

    pub fn add_operation(&mut self, t: &str, kind: u64, number: f64, inputs: &[&str]) -> u32 {
        let at = |i: usize| inputs.get(i).copied().unwrap_or("");
        let (p, q, r) = (at(0), at(1), at(2));
        unsafe {
            dw_add_operation(self.bytes.as_mut_ptr(), SIZE, t.as_ptr(), t.len(), kind, number.to_bits(), 0, 0, 0, 0, inputs.len() as u64 + 1, p.as_ptr(), p.len(), q.as_ptr(), q.len(), r.as_ptr(), r.len(), self.out.as_mut_ptr(), 64)
        }
    }

    pub fn add_component(&mut self, t: &str, kind: u64, number: f64) -> u32 {
        unsafe { dw_add_component(self.bytes.as_mut_ptr(), SIZE, t.as_ptr(), t.len(), kind, number.to_bits(), 0, 0, 0, 0, self.out.as_mut_ptr(), 64) }
    }

    pub fn add_input(&mut self, t: &str, s: &str, i: usize) -> u32 {
        unsafe { dw_add_input(self.bytes.as_mut_ptr(), SIZE, t.as_ptr(), t.len(), s.as_ptr(), s.len(), i as u64, self.out.as_mut_ptr(), 64) }
    }

    pub fn remove_input(&mut self, t: &str, i: usize) -> u32 {
        unsafe { dw_remove_input(self.bytes.as_mut_ptr(), SIZE, t.as_ptr(), t.len(), i as u64, self.out.as_mut_ptr(), 64) }
    }

    pub fn remove_component(&mut self, t: &str) -> u32 {
        unsafe { dw_remove_component(self.bytes.as_mut_ptr(), SIZE, t.as_ptr(), t.len(), self.out.as_mut_ptr(), 64) }
    }

    pub fn rename_component(&mut self, t: &str, u: &str) -> u32 {
        unsafe { dw_rename_component(self.bytes.as_mut_ptr(), SIZE, t.as_ptr(), t.len(), u.as_ptr(), u.len(), self.out.as_mut_ptr(), 64) }
    }

    pub fn set_value(&mut self, t: &str, name: &str, v: f64) -> u32 {
        unsafe { dw_set_parameter(self.bytes.as_mut_ptr(), SIZE, t.as_ptr(), t.len(), name.as_ptr(), name.len(), 0, v.to_bits(), 0, 0, self.out.as_mut_ptr(), 64) }
    }

    pub fn compile(&mut self, t: &str) -> u32 {
        unsafe { dw_compile(self.bytes.as_ptr(), SIZE, t.as_ptr(), t.len(), self.order.as_mut_ptr(), 2560, self.out.as_mut_ptr(), 64) }
    }

    pub fn evaluate_at(&mut self, t: &str, p: [f64; 3]) -> u32 {
        let [x, y, z] = p.map(f64::to_bits);
        unsafe { dw_evaluate_at(self.bytes.as_ptr(), SIZE, t.as_ptr(), t.len(), x, y, z, self.out.as_mut_ptr(), 64) }
    }
}
