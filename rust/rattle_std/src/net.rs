//! Sockets.
use crate::rt::HostRuntime;
use ::std::io;

pub use ::std::net::{Ipv4Addr, Shutdown, SocketAddr, TcpStream, ToSocketAddrs};

/// A runtime that has sockets.
pub trait Net {
    /// What waits for connections.
    type Listener;
    /// A connection.
    type Stream;
}

impl Net for HostRuntime {
    type Listener = TcpListener;
    type Stream = TcpStream;
}

/// A socket that waits for connections.
#[derive(Debug)]
pub struct TcpListener(::std::net::TcpListener);

impl TcpListener {
    /// Opens a socket at an address.
    pub fn bind<R: Net>(_rt: &R, address: impl ToSocketAddrs) -> io::Result<TcpListener> {
        Ok(TcpListener(::std::net::TcpListener::bind(address)?))
    }

    /// Its address.
    pub fn local_addr(&self) -> io::Result<SocketAddr> {
        self.0.local_addr()
    }

    /// Waits for a connection.
    pub fn accept(&self) -> io::Result<(TcpStream, SocketAddr)> {
        self.0.accept()
    }
}
