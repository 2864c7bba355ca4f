use library::timing::Subject;
use library::profiles::PROFILES;
fn main() {
    let mut line = String::new();
    for (p, size) in [("objects",10),("objects",100),("objects",200),("flat",10),("flat",100),("forward",100),("functions",10),("functions",100),("deep",100)] {
        let (_, f) = PROFILES.iter().find(|(n, _)| *n == p).unwrap();
        let mut s = Subject::new(f(size)).unwrap();
        let n = if size <= 10 { 20 } else { 4 };
        let mut a = vec![]; let mut b = vec![]; let mut r = vec![];
        for _ in 0..400 { let x = s.library(n).as_nanos() as f64 / n as f64; let y = s.rust(n).as_nanos() as f64 / n as f64; a.push(x); b.push(y); r.push(x/y); }
        for v in [&mut a, &mut b, &mut r] { v.sort_by(f64::total_cmp); }
        line += &format!("{p} {size}: lib min {:.0} q1 {:.0}  rust min {:.0} q1 {:.0}  min/min {:.2} median ratio {:.2}\n", a[0], a[100], b[0], b[100], a[0]/b[0], r[200]);
    }
    print!("{line}");
}
