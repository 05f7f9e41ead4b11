//! Certificates by `openssl`, as a studio makes them.

use std::fs;
use std::os::unix::fs::PermissionsExt;
use std::path::Path;

use crate::run;

/// Makes `NAME.crt` and `NAME.key` in a folder: a certificate that nobody else has signed, of a host at an address
/// (which a node does not look at, and etcd does).
pub fn make(folder: &Path, name: &str, host: &str) -> Result<(), String> {
    let at = |end: &str| {
        folder
            .join(format!("{name}.{end}"))
            .to_string_lossy()
            .into_owned()
    };
    let (subject, host) = (format!("/CN={name}"), format!("subjectAltName=IP:{host}"));
    let curve = "ec_paramgen_curve:prime256v1";
    let key = [
        "-newkey",
        "ec",
        "-pkeyopt",
        curve,
        "-nodes",
        "-keyout",
        &at("key"),
    ]
    .map(str::to_string);
    let rest = [
        "-out",
        &at("crt"),
        "-days",
        "3650",
        "-subj",
        &subject,
        "-addext",
        &host,
    ]
    .map(str::to_string);
    let all: Vec<&str> = ["req", "-x509"]
        .into_iter()
        .chain(key.iter().map(String::as_str))
        .chain(rest.iter().map(String::as_str))
        .collect();
    run("openssl", &all)?;
    fs::set_permissions(at("key"), fs::Permissions::from_mode(0o600))
        .map_err(|error| error.to_string())
}
