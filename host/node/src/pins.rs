//! Who is at the other end of a link: the one whose certificate it is.
//!
//! Certificates are pinned: a peer's is the one that the configuration names, and no authority stands behind it,
//! so that those made by `openssl req -x509` do. Names and dates in them are not looked at.

use std::fmt;
use std::path::Path;
use std::str::FromStr;
use std::sync::Arc;
use std::time::SystemTime;

use ring::digest::{digest, SHA256};
use rustls::client::{NoClientSessionStorage, ServerCertVerified, ServerCertVerifier};
use rustls::server::{ClientCertVerified, ClientCertVerifier, NoServerSessionStorage};
use rustls::version::TLS13;
use rustls::{
    Certificate, ClientConfig, DistinguishedNames, Error, PrivateKey, ServerConfig, ServerName,
};

/// What both ends speak, so that a link is not taken for another service.
const PROTOCOL: &[u8] = b"stemline/1";

/// The SHA-256 of a certificate, written as `openssl x509 -fingerprint -sha256` does: `A0:B1:..`.
#[derive(Clone, Copy, PartialEq, Eq)]
pub struct Pin([u8; 32]);

impl Pin {
    /// Of a certificate.
    pub fn of(certificate: &Certificate) -> Pin {
        let mut bytes = [0; 32];
        bytes.copy_from_slice(digest(&SHA256, &certificate.0).as_ref());
        Pin(bytes)
    }
}

impl FromStr for Pin {
    type Err = String;

    fn from_str(text: &str) -> Result<Pin, String> {
        let digits: String = text.chars().filter(|&c| c != ':').collect();
        let wrong = || format!("\"{text}\" is no fingerprint: 64 hexadecimal digits, by : or not");
        if digits.len() != 64 || !digits.bytes().all(|c| c.is_ascii_hexdigit()) {
            return Err(wrong());
        }
        let mut bytes = [0; 32];
        for (at, byte) in bytes.iter_mut().enumerate() {
            *byte = u8::from_str_radix(&digits[2 * at..2 * at + 2], 16).map_err(|_| wrong())?;
        }
        Ok(Pin(bytes))
    }
}

impl fmt::Display for Pin {
    fn fmt(&self, f: &mut fmt::Formatter) -> fmt::Result {
        let pairs: Vec<String> = self.0.iter().map(|byte| format!("{byte:02X}")).collect();
        f.write_str(&pairs.join(":"))
    }
}

impl fmt::Debug for Pin {
    fn fmt(&self, f: &mut fmt::Formatter) -> fmt::Result {
        fmt::Display::fmt(self, f)
    }
}

/// The certificate of a file.
pub fn certificate(path: &Path) -> Result<Certificate, String> {
    let bytes = std::fs::read(path).map_err(|error| format!("{}: {error}", path.display()))?;
    let mut found = rustls_pemfile::certs(&mut &bytes[..]).unwrap_or_default();
    match found.len() {
        1 => Ok(Certificate(found.remove(0))),
        0 => Err(format!("{} has no certificate (PEM)", path.display())),
        _ => Err(format!("{} has more than one certificate", path.display())),
    }
}

/// The key of a file, which nobody but its owner may read.
pub fn key(path: &Path) -> Result<PrivateKey, String> {
    use std::os::unix::fs::PermissionsExt;
    let words = |error| format!("{}: {error}", path.display());
    let mode = std::fs::metadata(path).map_err(words)?.permissions().mode() & 0o777;
    if mode & 0o077 != 0 {
        return Err(format!(
            "{} may be read by others than its owner (mode {mode:03o}): chmod 600 it",
            path.display()
        ));
    }
    let bytes = std::fs::read(path).map_err(words)?;
    let mut found = rustls_pemfile::pkcs8_private_keys(&mut &bytes[..]).unwrap_or_default();
    match found.len() {
        1 => Ok(PrivateKey(found.remove(0))),
        _ => Err(format!(
            "{} has no private key (PEM, PKCS #8)",
            path.display()
        )),
    }
}

/// A node's own certificate with its key.
#[derive(Clone)]
pub struct Identity {
    certificate: Certificate,
    key: PrivateKey,
}

impl Identity {
    /// Of two files.
    pub fn read(certificate_file: &Path, key_file: &Path) -> Result<Identity, String> {
        let (certificate, key) = (certificate(certificate_file)?, key(key_file)?);
        Ok(Identity { certificate, key })
    }

    /// By which its peers know it.
    pub fn pin(&self) -> Pin {
        Pin::of(&self.certificate)
    }

    /// To be dialled by those with these certificates, and by nobody else.
    pub fn server(&self, peers: Vec<Pin>) -> Result<Arc<ServerConfig>, String> {
        let mut config = ServerConfig::builder()
            .with_safe_default_cipher_suites()
            .with_safe_default_kx_groups()
            .with_protocol_versions(&[&TLS13])
            .map_err(words)?
            .with_client_cert_verifier(Arc::new(Pinned(peers)))
            .with_single_cert(vec![self.certificate.clone()], self.key.clone())
            .map_err(words)?;
        config.alpn_protocols = vec![PROTOCOL.to_vec()];
        config.session_storage = Arc::new(NoServerSessionStorage {});
        Ok(Arc::new(config))
    }

    /// To dial the one with this certificate.
    pub fn client(&self, peer: Pin) -> Result<Arc<ClientConfig>, String> {
        let mut config = ClientConfig::builder()
            .with_safe_default_cipher_suites()
            .with_safe_default_kx_groups()
            .with_protocol_versions(&[&TLS13])
            .map_err(words)?
            .with_custom_certificate_verifier(Arc::new(Pinned(vec![peer])))
            .with_single_cert(vec![self.certificate.clone()], self.key.clone())
            .map_err(words)?;
        config.alpn_protocols = vec![PROTOCOL.to_vec()];
        config.session_storage = Arc::new(NoClientSessionStorage {});
        Ok(Arc::new(config))
    }
}

fn words(error: Error) -> String {
    format!("the certificate and its key cannot be used: {error}")
}

/// Those who are let in. That the other end has the key of its certificate, the handshake's signature shows.
struct Pinned(Vec<Pin>);

impl Pinned {
    fn knows(&self, certificate: &Certificate) -> Result<(), Error> {
        let pin = Pin::of(certificate);
        match self.0.contains(&pin) {
            true => Ok(()),
            false => Err(Error::General(format!("a stranger's certificate, {pin}"))),
        }
    }
}

impl ClientCertVerifier for Pinned {
    fn client_auth_root_subjects(&self) -> Option<DistinguishedNames> {
        Some(Vec::new())
    }

    fn verify_client_cert(
        &self,
        end_entity: &Certificate,
        _: &[Certificate],
        _: SystemTime,
    ) -> Result<ClientCertVerified, Error> {
        self.knows(end_entity)
            .map(|()| ClientCertVerified::assertion())
    }
}

impl ServerCertVerifier for Pinned {
    fn verify_server_cert(
        &self,
        end_entity: &Certificate,
        _: &[Certificate],
        _: &ServerName,
        _: &mut dyn Iterator<Item = &[u8]>,
        _: &[u8],
        _: SystemTime,
    ) -> Result<ServerCertVerified, Error> {
        self.knows(end_entity)
            .map(|()| ServerCertVerified::assertion())
    }
}

#[cfg(test)]
mod tests {
    use super::*;

    #[test]
    fn fingerprints() {
        let pin = Pin::of(&Certificate(b"abc".to_vec()));
        let text = "BA:78:16:BF:8F:01:CF:EA:41:41:40:DE:5D:AE:22:23:B0:03:61:A3:96:17:7A:9C:B4:10:FF:61:F2:00:15:AD";
        assert_eq!(pin.to_string(), text);
        assert_eq!(text.parse(), Ok(pin));
        assert_eq!(text.replace(':', "").to_lowercase().parse(), Ok(pin));
        assert!(text[..94].parse::<Pin>().is_err());
        assert!(text.replace('B', "x").parse::<Pin>().is_err());
    }

    #[test]
    fn only_those_who_are_pinned() {
        let certificates = [b"a", b"b"].map(|bytes| Certificate(bytes.to_vec()));
        let pinned = Pinned(vec![Pin::of(&certificates[0])]);
        assert!(pinned.knows(&certificates[0]).is_ok());
        let refused = pinned.knows(&certificates[1]).unwrap_err().to_string();
        assert!(
            refused.contains("a stranger's certificate, 3E:23:"),
            "{refused}"
        );
    }
}
