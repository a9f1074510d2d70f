//! Links the peers that bench/calls could build, and the archive of an earlier state: each variable names the folder of
//! one. BASE_FIELD says what the earlier archive's mrz_field_in_use answers, "number" (before 0.4.0) or "struct".

use std::env;

fn main() {
    for (variable, library, kind, cfg) in [
        ("NOW_PEER", "maruzhenu_now", "static", "now"),
        ("NOW_PEER", "varint_before", "static", "now"),
        ("BASE_PEER", "maruzhenu_base", "static", "base"),
        ("NGHTTP3_PEER", "nghttp3_peer", "static", "nghttp3"),
        ("QUINN_PEER", "quinn_peer", "dylib", "quinn"),
    ] {
        println!("cargo:rerun-if-env-changed={variable}");
        println!("cargo:rustc-check-cfg=cfg({cfg})");
        if let Ok(folder) = env::var(variable) {
            println!("cargo:rustc-link-search=native={folder}");
            println!("cargo:rustc-link-lib={kind}={library}");
            match kind {
                "dylib" => println!("cargo:rustc-link-arg=-Wl,-rpath,{folder}"),
                _ => println!("cargo:rerun-if-changed={folder}/lib{library}.a"),
            }
            println!("cargo:rustc-cfg={cfg}");
        }
    }
    println!("cargo:rerun-if-env-changed=BASE_FIELD");
    println!("cargo:rustc-check-cfg=cfg(base_field, values(none(), \"number\", \"struct\"))");
    if let (Ok(_), Ok(answer)) = (env::var("BASE_PEER"), env::var("BASE_FIELD")) {
        println!("cargo:rustc-cfg=base_field");
        println!("cargo:rustc-cfg=base_field=\"{answer}\"");
    }
    if env::var("NGHTTP3_PEER").is_ok() {
        println!("cargo:rustc-link-lib=static=nghttp3");
        let folder = env::var("NGHTTP3_LIBDIR").expect("bench/calls sets both variables");
        println!("cargo:rustc-link-search=native={folder}");
    }
}
