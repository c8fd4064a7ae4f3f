//! Compiles one rule over three Booleans, v0 <=> (v1 and v2), and prints the answer's words.

extern "C" {
    fn compile_set(set: *const i32, set_len: usize, out: *mut i32, out_len: usize, work: *mut i32, work_len: usize) -> i64;
}

fn main() {
    let set = [3, 0, 1, 1, 16, 11, 0, 12, 2, 11, 1, 11, 2];
    let (mut out, mut work) = ([0i32; 64], [0i32; 16384]);
    // each slice is lent as pointer and length, for the time of the call
    let n = unsafe { compile_set(set.as_ptr(), set.len(), out.as_mut_ptr(), out.len(), work.as_mut_ptr(), work.len()) };
    match n {
        -100 => println!("contradiction"),
        _ if n < 0 => println!("refused {}", -n),
        _ => println!("{}", out[..n as usize].iter().map(|w| w.to_string()).collect::<Vec<_>>().join(" ")),
    }
}
