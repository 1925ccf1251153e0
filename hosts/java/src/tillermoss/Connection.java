package tillermoss;

import java.io.ByteArrayOutputStream;
import java.io.Closeable;
import java.io.EOFException;
import java.io.IOException;
import java.io.InputStream;
import java.io.OutputStream;
import java.net.InetSocketAddress;
import java.net.Socket;
import java.net.UnixDomainSocketAddress;
import java.nio.ByteBuffer;
import java.nio.channels.SocketChannel;
import java.util.concurrent.ArrayBlockingQueue;
import javax.net.ssl.SSLContext;
import javax.net.ssl.SSLParameters;
import javax.net.ssl.SSLSocket;

/** Blocks over a stream, each after its length in four bytes. */
final class Connection {
    private static final int CONNECTING = 5000, UNWRITTEN = 64, PIECE = 65_536;

    private final Closeable stream;
    private final InputStream input;
    private final OutputStream output;
    private final ArrayBlockingQueue<byte[]> toSend = new ArrayBlockingQueue<>(UNWRITTEN);
    private final Thread writer = new Thread(this::write, "tillermoss-writer");

    /** How a server is reached: by unix, tls or tcp. */
    static String kindOf(String server) {
        return server.startsWith("unix:") ? "unix" : server.startsWith("tls:") ? "tls" : "tcp";
    }

    /** Where a server is, without how it is reached. */
    static String place(String server) {
        return server.replaceFirst("^(unix|tls|tcp):", "");
    }

    /**
     * Whether a client that trusts the present server goes where that one sends it: to another that is reached in the same way. One that
     * knows its servers by TLS would give itself away over TCP.
     */
    static boolean isFollowed(String told, String present) {
        return kindOf(told).equals(kindOf(present)) && !kindOf(told).equals("unix");
    }

    Connection(String server, SSLContext trust) throws IOException {
        if (kindOf(server).equals("unix")) {
            SocketChannel channel = SocketChannel.open(UnixDomainSocketAddress.of(place(server)));
            stream = channel;
            input = new ChannelInput(channel);
            output = new ChannelOutput(channel);
        } else {
            Socket socket = dial(server, trust);
            stream = socket;
            input = socket.getInputStream();
            output = socket.getOutputStream();
        }
        writer.setDaemon(true);
        writer.start();
    }

    private static Socket dial(String server, SSLContext trust) throws IOException {
        String place = place(server);
        int colon = place.lastIndexOf(':');
        String host = colon <= 0 ? "127.0.0.1" : place.substring(0, colon).replaceAll("[\\[\\]]", "");
        int port = Integer.parseInt(place.substring(colon + 1));
        Socket plain = new Socket();
        try {
            plain.connect(new InetSocketAddress(host, port), CONNECTING);
            plain.setTcpNoDelay(true);
            if (kindOf(server).equals("tcp")) {
                return plain;
            }
            if (trust == null) {
                throw new IOException("a server by TLS wants an SSLContext");
            }
            boolean isHere = host.equals("127.0.0.1") || host.equals("::1");
            SSLSocket secure = (SSLSocket) trust.getSocketFactory().createSocket(plain, isHere ? "localhost" : host, port, true);
            SSLParameters rules = secure.getSSLParameters();
            rules.setEndpointIdentificationAlgorithm("HTTPS");
            secure.setSSLParameters(rules);
            secure.setSoTimeout(CONNECTING);
            secure.startHandshake();
            secure.setSoTimeout(0);
            return secure;
        } catch (IOException | RuntimeException why) {
            plain.close();
            throw why;
        }
    }

    /** Has a block written, and waits for nothing. If the server takes nothing any more the connection ends. */
    void send(byte[] block) {
        if (!toSend.offer(block)) {
            end();
        }
    }

    private void write() {
        try {
            while (true) {
                output.write(new Codec.Out().sized(toSend.take()).done());
                output.flush();
            }
        } catch (IOException | InterruptedException why) {
            end();
        }
    }

    /** The number that a server binds this connection to, or why it doesn't. It has to say so within five seconds. */
    Codec.Welcome greet(byte[] greeting) throws IOException {
        send(greeting);
        Thread watch = new Thread(this::endLater, "tillermoss-greeting");
        watch.setDaemon(true);
        watch.start();
        try {
            return Codec.readWelcome(next());
        } finally {
            watch.interrupt();
        }
    }

    private void endLater() {
        try {
            Thread.sleep(CONNECTING);
            end();
        } catch (InterruptedException why) {
            // (it has greeted)
        }
    }

    /** Waits for a block. Memory is taken for what comes, not for what the length says. */
    byte[] next() throws IOException {
        long length = Integer.toUnsignedLong(ByteBuffer.wrap(exactly(4)).getInt());
        return exactly(length);
    }

    private byte[] exactly(long length) throws IOException {
        ByteArrayOutputStream block = new ByteArrayOutputStream();
        byte[] piece = new byte[(int) Math.min(length, PIECE)];
        for (long left = length; left > 0; ) {
            int count = input.read(piece, 0, (int) Math.min(left, piece.length));
            if (count < 0) {
                throw new EOFException("the server closed the connection");
            }
            block.write(piece, 0, count);
            left -= count;
        }
        return block.toByteArray();
    }

    /** Closes the stream; who waits for a block hears of it. */
    void end() {
        writer.interrupt();
        try {
            stream.close();
        } catch (IOException why) {
            // (it has ended already)
        }
    }

    /** The streams that the library makes of a channel can't be read and written at once. */
    private static final class ChannelInput extends InputStream {
        private final SocketChannel channel;

        ChannelInput(SocketChannel channel) {
            this.channel = channel;
        }

        @Override
        public int read() throws IOException {
            byte[] one = new byte[1];
            return read(one, 0, 1) < 0 ? -1 : Byte.toUnsignedInt(one[0]);
        }

        @Override
        public int read(byte[] into, int at, int count) throws IOException {
            return channel.read(ByteBuffer.wrap(into, at, count));
        }
    }

    private static final class ChannelOutput extends OutputStream {
        private final SocketChannel channel;

        ChannelOutput(SocketChannel channel) {
            this.channel = channel;
        }

        @Override
        public void write(int one) throws IOException {
            write(new byte[] {(byte) one}, 0, 1);
        }

        @Override
        public void write(byte[] from, int at, int count) throws IOException {
            for (ByteBuffer left = ByteBuffer.wrap(from, at, count); left.hasRemaining(); ) {
                if (channel.write(left) < 0) {
                    throw new EOFException("the server takes nothing");
                }
            }
        }
    }
}
