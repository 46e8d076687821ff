//! Hands on what the oracle's build found: without the original, the cfg `no_oracle`.

fn main() {
    println!("cargo::rerun-if-changed=build.rs");
    println!("cargo::rustc-check-cfg=cfg(no_oracle)");
    if std::env::var("DEP_ORACLE_PRESENT").as_deref() != Ok("yes") {
        println!("cargo::rustc-cfg=no_oracle");
    }
}
