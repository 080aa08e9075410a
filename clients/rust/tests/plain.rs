// The checks as a plain program, for a runner without cargo: prints each check and the number that passed.
mod checks;

fn main() {
    for (name, check) in checks::ALL {
        check();
        println!("{name}: ok");
    }
    println!("{} checks passed", checks::ALL.len());
}
