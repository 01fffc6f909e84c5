"""luksrd-rescue: from the image of a disk to the plaintext of the LUKS volumes in it.

What libluksrd decrypts is proved. What this package puts together from it is tested."""

__version__ = "1.3.0"
