use library::call::Memory;
use library::profiles::PROFILES;
fn main() {
    let a: Vec<String> = std::env::args().collect();
    let size: u32 = a[2].parse().unwrap();
    let calls: u32 = a[3].parse().unwrap();
    let (_, p) = PROFILES.iter().find(|(n, _)| *n == a[1]).unwrap();
    let tree = p(size);
    let needed = model::needed(&tree).unwrap();
    let mut m = Memory::new(&needed, 3);
    for _ in 0..calls { m.call(&tree); }
}
