"""What try-readers drives: mail readers over a Maildir, as people use them."""
