! A small shop: what was sold, and what is left on the shelf.
program shop
  integer :: shelf, sold
  integer :: price ! of one piece
  shelf = 40
  sold = 12
  price = 7
  Shelf = shelf - sold ! case doesn't count in a name
  print *, shelf, sold
  ! the takings of two pieces, and of three
  print *, price + price, price + price + price
  print *, shelf - 1 + 1
end program shop
