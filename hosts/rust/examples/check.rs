//! Reads an image from a file, has it checked with a budget of 1000, and prints the reply.
fn main() {
    let path = std::env::args().nth(1).expect("usage: check IMAGE");
    let image = std::fs::read(path).expect("the image can be read");
    let r = ponybluster::check(&image, 1000);
    println!("{} {} {} {} {}", r.kind, r.operation, r.a, r.b, r.used);
}
