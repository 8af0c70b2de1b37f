program demo
  integer :: COUNT ! Count is kept
  count = 2
  print *, Count
end program demo
