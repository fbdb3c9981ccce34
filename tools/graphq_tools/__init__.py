"""What stands around graphq: import, export, pictures and a shell. None of it is part of the program, or proved."""
