"""RSA moduli whose factors can be found, by what is known to have gone wrong where they were made."""
import functools
import math
import subprocess

# All factors below 2^16; the steps of Fermat's method; the seconds of processor in which a product is known to be one.
SMALL, STEPS, SECONDS = math.factorial(2**16), 100, 2
# The remainders that powers of 65537 have: all of a modulus are of these where a library of Infineon's made it (CVE-2017-15361).
PRIMES = [number for number in range(3, 168) if all(number % factor for factor in range(2, number))]
POWERS = {prime: {pow(65537, exponent, prime) for exponent in range(prime)} for prime in PRIMES}


@functools.lru_cache(4096)
def weakness_of(modulus):
    """Why the factors of a modulus can be found; None where no reason is seen."""
    if math.gcd(modulus, SMALL) != 1:
        return "the modulus of the RSA key has a small factor"
    if all(modulus % prime in powers for prime, powers in POWERS.items()):
        return "the modulus of the RSA key is of a form whose factors can be found"
    middle = math.isqrt(modulus)
    if any(math.isqrt(square) ** 2 == square for square in (number**2 - modulus for number in range(middle, middle + STEPS) if number**2 >= modulus)):
        return "the factors of the RSA key are close to each other"
    # A process of its own keeps no other thread waiting.
    said = subprocess.run(["prlimit", f"--cpu={SECONDS}", "openssl", "prime", "-hex", f"{modulus:X}"], stdin=subprocess.DEVNULL, capture_output=True).stdout
    return None if said.strip().endswith(b"is not prime") else "the modulus of the RSA key is prime"
