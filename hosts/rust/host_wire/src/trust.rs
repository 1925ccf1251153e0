//! By what the two ends of a `tls:` know each other, in OpenSSL: what both do alike.

use foreign_types::ForeignTypeRef;
use openssl::error::ErrorStack;
use openssl::nid::Nid;
use openssl::pkey::PKey;
use openssl::ssl::{SslContextBuilder, SslRef, SslVerifyMode, SslVersion};
use openssl::x509::store::{X509Lookup, X509StoreBuilder};
use openssl::x509::verify::X509VerifyFlags;
use openssl::x509::{X509, X509Ref, X509VerifyResult};
use openssl_sys::X509_FILETYPE_PEM;
use std::ffi::{CString, c_int, c_long};
use std::fs;
use std::io::{self, ErrorKind};
use std::os::unix::ffi::OsStrExt;
use std::path::Path;
use std::ptr;

/// How many authorities stand between a certificate that is shown and one that is trusted, at most.
const DEPTH: u32 = 4;

/// How many bytes have the certificates in all that the other end shows, at most: those of five with keys of 4,096 bits.
const CHAIN: c_long = 16_384;

/// What `SSL_CTX_set_max_cert_list` of OpenSSL's `ssl.h` stands for.
const SET_MAX_CERT_LIST: c_int = 51;

/// What `X509_LOOKUP_load_file` of OpenSSL's `x509_vfy.h` stands for.
const FILE_LOAD: c_int = 1;

fn fault(text: String) -> io::Error {
    io::Error::new(ErrorKind::InvalidInput, text)
}

fn read(path: &Path, what: &str) -> io::Result<Vec<u8>> {
    fs::read(path).map_err(|error| fault(format!("{} has to be a file with {what} in PEM: {error}", path.display())))
}

/// The certificates of a file in PEM, of which there is one at least.
///
/// # Errors
///
/// If it can't be read, or has none.
pub fn certificates(path: &Path) -> io::Result<Vec<X509>> {
    let found = X509::stack_from_pem(&read(path, "a certificate")?).map_err(|error| fault(format!("{}: {error}", path.display())))?;
    if found.is_empty() { Err(fault(format!("{} has no certificate in PEM", path.display()))) } else { Ok(found) }
}

/// Shows itself by the first certificate of a file, with those after it as the authorities between, and by its key.
///
/// # Errors
///
/// If a file can't be read, or the key isn't that of the certificate.
pub fn show_by(context: &mut SslContextBuilder, certificate: &Path, key: &Path) -> io::Result<()> {
    let mut chain = certificates(certificate)?.into_iter();
    // (a key that wants a word is none: nobody is there to be asked for it)
    let own_key = PKey::private_key_from_pem_callback(&read(key, "a key")?, |_| Ok(0))
        .map_err(|_| fault(format!("{} has no key in PEM", key.display())))?;
    let mut show = || -> Result<(), ErrorStack> {
        chain.next().iter().try_for_each(|own| context.set_certificate(own))?;
        chain.try_for_each(|authority| context.add_extra_chain_cert(authority))?;
        context.set_private_key(&own_key)?;
        context.check_private_key()
    };
    show().map_err(|_| fault(format!("the key of {} isn't that of the certificate of {}", key.display(), certificate.display())))
}

/// Wants a certificate of the other end which one of these authorities signed, or one that these did; and no other is trusted. Where
/// lists of revoked certificates are named, whoever signed it has one there that hasn't run out, and that doesn't list it. What the other
/// end shows has its bounds.
///
/// # Errors
///
/// If a file can't be read, or has no certificate, or no list.
pub fn trust(context: &mut SslContextBuilder, authorities: &Path, revoked: Option<&Path>) -> io::Result<()> {
    let mut store = X509StoreBuilder::new()?;
    for authority in certificates(authorities)? {
        store.add_cert(authority)?;
    }
    revoked.into_iter().try_for_each(|lists| add_lists(&mut store, lists))?;
    // (an authority between is trusted where it is named, whoever stands above it)
    store.set_flags(X509VerifyFlags::PARTIAL_CHAIN)?;
    context.set_cert_store(store.build());
    context.set_verify(SslVerifyMode::PEER | SslVerifyMode::FAIL_IF_NO_PEER_CERT);
    context.set_verify_depth(DEPTH);
    limit_chain(context);
    context.set_min_proto_version(Some(SslVersion::TLS1_2))?;
    Ok(())
}

// The lists of revoked certificates of a file in PEM.
fn add_lists(store: &mut X509StoreBuilder, lists: &Path) -> io::Result<()> {
    let none = || fault(format!("{} has no lists of revoked certificates, or something else too", lists.display()));
    // (a certificate there would be trusted)
    if String::from_utf8_lossy(&read(lists, "lists of revoked certificates")?).contains("CERTIFICATE-----") {
        return Err(none());
    }
    let path = CString::new(lists.as_os_str().as_bytes())?;
    let lookup = store.add_lookup(X509Lookup::file())?;
    // SAFETY: the lookup is a live one of files, and the path is a text of C that outlives the call, which hands nothing back.
    let read =
        unsafe { openssl_sys::X509_LOOKUP_ctrl(lookup.as_ptr(), FILE_LOAD, path.as_ptr(), X509_FILETYPE_PEM.into(), ptr::null_mut()) };
    if read != 1 {
        return Err(none());
    }
    store.set_flags(X509VerifyFlags::CRL_CHECK)?;
    Ok(())
}

fn limit_chain(context: &mut SslContextBuilder) {
    // SAFETY: the context is a live one, and this command takes a number alone.
    unsafe { openssl_sys::SSL_CTX_ctrl(context.as_ptr(), SET_MAX_CERT_LIST, CHAIN, ptr::null_mut()) };
}

// How OpenSSL says that the authority isn't there which signed a certificate, or isn't trusted.
const UNSIGNED: [c_int; 4] = [
    openssl_sys::X509_V_ERR_UNABLE_TO_GET_ISSUER_CERT,
    openssl_sys::X509_V_ERR_UNABLE_TO_GET_ISSUER_CERT_LOCALLY,
    openssl_sys::X509_V_ERR_SELF_SIGNED_CERT_IN_CHAIN,
    openssl_sys::X509_V_ERR_DEPTH_ZERO_SELF_SIGNED_CERT,
];

// What OpenSSL says where no TLS is spoken at the other end.
const NO_TLS: [&str; 4] = ["wrong version number", "http request", "packet length too long", "unsupported protocol"];

// What stands in front of what the other end has against this one.
const ALERT: &str = "alert ";

/// Why a handshake failed: by what is wrong with the certificate that was shown, where that is it.
#[must_use]
pub fn why(ssl: &SslRef, error: &openssl::ssl::Error) -> io::Error {
    let result = ssl.verify_result();
    if result != X509VerifyResult::OK {
        let fault = match result.as_raw() {
            fault if UNSIGNED.contains(&fault) => "no authority that is trusted here has signed it",
            _ => result.error_string(),
        };
        return io::Error::new(ErrorKind::InvalidData, format!("the certificate that the other end shows isn't taken: {fault}"));
    }
    match error.io_error() {
        Some(error) if error.kind() != ErrorKind::ConnectionReset => io::Error::new(error.kind(), error.to_string()),
        None if error.ssl_error().is_some() => io::Error::new(ErrorKind::InvalidData, said(error).unwrap_or_else(|| error.to_string())),
        _ => io::Error::new(ErrorKind::UnexpectedEof, "the other end ended the handshake: does it speak TLS?"),
    }
}

/// A fault of a stream in words, where TLS has made it: what the other end has against this one is told with what is read first.
#[must_use]
pub fn worded(error: io::Error) -> io::Error {
    let told = error.get_ref().and_then(|inner| inner.downcast_ref::<openssl::ssl::Error>()).and_then(said);
    told.map_or(error, |told| io::Error::new(ErrorKind::InvalidData, told))
}

// The fault in words, where it is a usual one.
fn said(error: &openssl::ssl::Error) -> Option<String> {
    let mut reasons = error.ssl_error()?.errors().iter().filter_map(openssl::error::Error::reason);
    reasons.find_map(|reason| match reason.split_once(ALERT) {
        Some((_, alert)) => Some(format!("the other end doesn't take what this one shows: {alert}")),
        None => NO_TLS.contains(&reason).then(|| "the other end speaks no TLS".to_owned()),
    })
}

/// The common name of a certificate; the last one where there are several. None where there is none, or it isn't written in UTF-8.
#[must_use]
pub fn common_name(certificate: &X509Ref) -> Option<String> {
    let name = certificate.subject_name().entries_by_nid(Nid::COMMONNAME).last()?;
    // (its bytes as they are: a text of C would end at the first zero)
    String::from_utf8(name.data().as_slice().to_vec()).ok()
}

#[cfg(test)]
mod tests {
    use super::*;
    use openssl::x509::X509Name;

    // A certificate that nobody signed, for these common names.
    fn named(names: &[&str]) -> X509 {
        let mut name = X509Name::builder().unwrap();
        names.iter().for_each(|text| name.append_entry_by_nid(Nid::COMMONNAME, text).unwrap());
        name.append_entry_by_nid(Nid::ORGANIZATIONNAME, "other").unwrap();
        let mut certificate = X509::builder().unwrap();
        certificate.set_subject_name(&name.build()).unwrap();
        certificate.build()
    }

    #[test]
    fn the_last_common_name_counts() {
        let rows: &[(&[&str], Option<&str>)] =
            &[(&[], None), (&["ann"], Some("ann")), (&["ann", "bob"], Some("bob")), (&["ann\0.example"], Some("ann\0.example"))];
        for (names, wanted) in rows {
            assert_eq!(common_name(&named(names)).as_deref(), *wanted, "{names:?}");
        }
    }
}
