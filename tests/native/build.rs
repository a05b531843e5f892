// Links a translator, a walk, and a fold and a step in C for the benchmark, where PEER names a folder that holds them; JOB is the last
// change request that they follow.
use std::process::Command;

fn main() {
    println!("cargo:rustc-check-cfg=cfg(peer)");
    println!("cargo:rerun-if-env-changed=PEER");
    println!("cargo:rerun-if-env-changed=JOB");
    println!("cargo:rerun-if-changed=build.rs");
    if let Ok(peer) = std::env::var("PEER") {
        let out = std::env::var("OUT_DIR").unwrap();
        let run = |c: &mut Command| assert!(c.status().unwrap().success(), "{c:?}");
        let job = format!("-DJOB={}", std::env::var("JOB").expect("./speed sets it"));
        let parts = ["peer", "walk", "fold"];
        for part in parts {
            run(Command::new("gcc")
                .args(["-std=c11", "-O3", "-march=x86-64-v2", &job, "-c", "-o"])
                .args([format!("{out}/{part}.o"), format!("{peer}/{part}.c")]));
            println!("cargo:rerun-if-changed={peer}/{part}.c");
        }
        run(Command::new("ar").arg("rcs").arg(format!("{out}/libpeer.a")).args(parts.map(|part| format!("{out}/{part}.o"))));
        println!("cargo:rustc-link-search=native={out}");
        println!("cargo:rustc-link-lib=static=peer");
        println!("cargo:rustc-cfg=peer");
    }
}
