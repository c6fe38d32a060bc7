"""Makes sha256-lengths.txt: python3 make_sha256_lengths.py > sha256-lengths.txt"""
import hashlib
import platform
import ssl

LENGTHS = [*range(260), 511, 512, 1000, 4096, 4151, 65535, 65536, 65589, 1000003]

print("# length digest; byte i of the message of length L is (7 * i + L + i // 256) mod 256")
print(f"# made by make_sha256_lengths.py with hashlib of Python {platform.python_version()} over {ssl.OPENSSL_VERSION}")
assert hashlib.sha256.__module__ == "_hashlib", "OpenSSL's digest is wanted"
for length in LENGTHS:
    message = bytes((7 * i + length + i // 256) % 256 for i in range(length))
    print(length, hashlib.sha256(message).hexdigest())
