"""Scripts, the plain machine, explanations and pictures of splitrun's tapes."""
