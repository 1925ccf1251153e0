//! Strangers at `tls:`, who show whatever certificates they like.

use crate::plain::new;
use host_wire::{Blocks, GREETING_LIMIT, Welcome, write_block};
use openssl::asn1::Asn1Time;
use openssl::bn::{BigNum, MsbOption};
use openssl::ec::{EcGroup, EcKey};
use openssl::error::ErrorStack;
use openssl::hash::MessageDigest;
use openssl::nid::Nid;
use openssl::pkey::{PKey, Private};
use openssl::ssl::{SslConnector, SslMethod, SslVerifyMode};
use openssl::x509::extension::BasicConstraints;
use openssl::x509::{X509, X509Name, X509NameRef};
use std::fs;
use std::io;
use std::net::TcpStream;
use std::path::Path;
use std::time::Duration;

/// Writes a certificate of this name that ran out, which the authority of these certificates has signed, and its key, among them.
///
/// # Errors
///
/// If the authority can't be read, OpenSSL makes no such certificate, or it can't be written.
pub fn expired(certificates: &Path, subject: &str) -> io::Result<()> {
    let above = X509::from_pem(&fs::read(certificates.join("ca.pem"))?)?;
    let (by, own) = (PKey::private_key_from_pem(&fs::read(certificates.join("ca.key"))?)?, key()?);
    let certificate = signed_until(&Asn1Time::from_unix(1)?, name(subject)?.as_ref(), &own, &Signer(above.subject_name(), &by), false)?;
    fs::write(certificates.join("expired.pem"), certificate.to_pem()?)?;
    fs::write(certificates.join("expired.key"), own.private_key_to_pem_pkcs8()?)
}

/// A stranger's certificate, its key, and what it shows with it.
#[derive(Debug)]
pub struct Stranger {
    certificate: X509,
    key: PKey<Private>,
    authorities: Vec<X509>,
}

fn key() -> Result<PKey<Private>, ErrorStack> {
    let curve = EcGroup::from_curve_name(Nid::X9_62_PRIME256V1)?;
    PKey::from_ec_key(EcKey::generate(&curve)?)
}

fn name(text: &str) -> Result<X509Name, ErrorStack> {
    let mut name = X509Name::builder()?;
    name.append_entry_by_nid(Nid::COMMONNAME, text)?;
    Ok(name.build())
}

/// Who signs: its name and its key.
struct Signer<'a>(&'a X509NameRef, &'a PKey<Private>);

// A certificate for this key, for seven days.
fn signed(subject: &X509NameRef, own: &PKey<Private>, by: &Signer, is_authority: bool) -> Result<X509, ErrorStack> {
    signed_until(&Asn1Time::days_from_now(7)?, subject, own, by, is_authority)
}

fn signed_until(until: &Asn1Time, subject: &X509NameRef, own: &PKey<Private>, by: &Signer, is_authority: bool) -> Result<X509, ErrorStack> {
    let mut number = BigNum::new()?;
    number.rand(128, MsbOption::ONE, false)?;
    let from = Asn1Time::from_unix(0)?;
    let mut certificate = X509::builder()?;
    certificate.set_version(2)?;
    certificate.set_serial_number(number.to_asn1_integer()?.as_ref())?;
    certificate.set_subject_name(subject)?;
    certificate.set_issuer_name(by.0)?;
    certificate.set_not_before(from.as_ref())?;
    certificate.set_not_after(until)?;
    certificate.set_pubkey(own)?;
    let mut constraints = BasicConstraints::new();
    constraints.critical();
    if is_authority {
        constraints.ca();
    }
    certificate.append_extension(constraints.build()?)?;
    certificate.sign(by.1, MessageDigest::sha256())?;
    Ok(certificate.build())
}

impl Stranger {
    /// One of this name below so many authorities of one name, each with a key of its own, that nobody trusts.
    ///
    /// # Errors
    ///
    /// If OpenSSL makes no such certificates.
    pub fn new(subject: &str, authority: &str, count: usize) -> Result<Stranger, ErrorStack> {
        let above = name(authority)?;
        let keys = (0..count).map(|_| key()).collect::<Result<Vec<_>, _>>()?;
        let authorities = keys.iter().map(|own| signed(&above, own, &Signer(&above, own), true)).collect::<Result<_, _>>()?;
        let own = key()?;
        let certificate = signed(name(subject)?.as_ref(), &own, &Signer(&above, keys.first().unwrap_or(&own)), false)?;
        Ok(Stranger { certificate, key: own, authorities })
    }

    /// One of this name, for whom the authority of these certificates vouches over so many others between.
    ///
    /// # Errors
    ///
    /// If the authority can't be read, or OpenSSL makes no such certificates.
    pub fn below(certificates: &Path, subject: &str, count: usize) -> io::Result<Stranger> {
        let mut above = X509::from_pem(&fs::read(certificates.join("ca.pem"))?)?;
        let mut by = PKey::private_key_from_pem(&fs::read(certificates.join("ca.key"))?)?;
        let mut authorities = Vec::new();
        for number in 0..count {
            let between = key()?;
            above = signed(name(&format!("Authority {number}"))?.as_ref(), &between, &Signer(above.subject_name(), &by), true)?;
            authorities.insert(0, above.clone());
            by = between;
        }
        let own = key()?;
        let certificate = signed(name(subject)?.as_ref(), &own, &Signer(above.subject_name(), &by), false)?;
        Ok(Stranger { certificate, key: own, authorities })
    }

    /// Shows all of that to a server at `tls:`, greets as a new client for `ann`, and waits for what comes of it; whether it is let in.
    ///
    /// # Errors
    ///
    /// If it can't be connected, or the server says nothing for a minute.
    pub fn show(&self, place: &str) -> io::Result<bool> {
        let mut connector = SslConnector::builder(SslMethod::tls_client())?;
        connector.set_verify(SslVerifyMode::NONE);
        connector.set_certificate(&self.certificate)?;
        connector.set_private_key(&self.key)?;
        self.authorities.iter().try_for_each(|authority| connector.add_extra_chain_cert(authority.clone()))?;
        let stream = TcpStream::connect(place)?;
        stream.set_read_timeout(Some(Duration::from_secs(60)))?;
        // (by TLS 1.3 a client is done before the server has looked at what it shows)
        let Ok(mut stream) = connector.build().connect("localhost", stream) else {
            return Ok(false);
        };
        let greeted = write_block(&mut stream, &new("ann").write()).and_then(|()| Blocks::new(GREETING_LIMIT).next(&mut stream));
        match greeted {
            Ok(answer) => Ok(answer.is_some_and(|answer| Welcome::read(&answer).is_ok())),
            Err(error) if matches!(error.kind(), io::ErrorKind::WouldBlock | io::ErrorKind::TimedOut) => Err(error),
            Err(_) => Ok(false),
        }
    }
}
