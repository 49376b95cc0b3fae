"""What svd.py asks of docs/registers.svd: of the file by itself, of every register, in sessions."""
