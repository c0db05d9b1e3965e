"""Build trees of CMake and Meson: what they consist of, and how they are changed and compared."""
