! A scaler in station 3 and an output register in station 4, rehearsed line by line. From the repository's root:
!
!   ./build.sh library
!   gfortran -std=f2008 -Wall -J target examples/fortran/rehearse_once.f90 target/staticlib/libcapi.a -o target/rehearse_once_f
!   target/rehearse_once_f
!
! Fortran has no unsigned words: c_int32_t stands for uint32_t. Every word of a fit crate and of an answer is below 2^24, so none looks negative.

module pagontxu
  use, intrinsic :: iso_c_binding, only: c_char, c_int32_t, c_size_t
  implicit none

  interface
    function pagontxu_crate_line(memory, memory_len, previous, line, line_len) bind(c) result(number)
      import :: c_char, c_int32_t, c_size_t
      integer(c_int32_t), intent(inout) :: memory(*)
      integer(c_size_t), value :: memory_len, line_len
      integer(c_int32_t), value :: previous
      character(kind=c_char), intent(in) :: line(*)
      integer(c_int32_t) :: number
    end function

    function pagontxu_run_line(memory, memory_len, line, line_len, answer, answer_len, buffer, buffer_len) bind(c) result(number)
      import :: c_char, c_int32_t, c_size_t
      integer(c_int32_t), intent(inout) :: memory(*), answer(*), buffer(*)
      integer(c_size_t), value :: memory_len, line_len, answer_len, buffer_len
      character(kind=c_char), intent(in) :: line(*)
      integer(c_int32_t) :: number
    end function

    function pagontxu_step(memory, memory_len, step, step_len, answer, answer_len, buffer, buffer_len) bind(c) result(number)
      import :: c_int32_t, c_size_t
      integer(c_int32_t), intent(inout) :: memory(*), answer(*), buffer(*)
      integer(c_int32_t), intent(in) :: step(*)
      integer(c_size_t), value :: memory_len, step_len, answer_len, buffer_len
      integer(c_int32_t) :: number
    end function

    function pagontxu_list(memory, memory_len, count, steps, steps_len, answers, answers_len, buffers, buffers_len) &
        bind(c) result(number)
      import :: c_int32_t, c_size_t
      integer(c_int32_t), intent(inout) :: memory(*), answers(*), buffers(*)
      integer(c_int32_t), intent(in) :: steps(*)
      integer(c_size_t), value :: memory_len, count, steps_len, answers_len, buffers_len
      integer(c_int32_t) :: number
    end function
  end interface
end module

program rehearse_once
  use, intrinsic :: iso_c_binding, only: c_int32_t, c_size_t
  use pagontxu
  implicit none

  ! The six words of a step that has no line: the first two words of the buffer are put into the output register.
  integer(c_int32_t), parameter :: put_back(6) = [11, 4, 0, 4, 2, 0]
  integer(c_int32_t) :: memory(0:767) = 0, buffer(512) = 0, answer(4), number

  number = pagontxu_crate_line(memory, 768_c_size_t, 0_c_int32_t, "n=3 kind=1 r=2 wide=1", 21_c_size_t)
  if (number /= 0) stop 1
  number = pagontxu_crate_line(memory, 768_c_size_t, 3_c_int32_t, "n=4 kind=2 r=2 wide=1", 21_c_size_t)
  if (number /= 0) stop 1
  call run("op=front n=3 a=0 v=16777215")
  call run("op=naf n=3 a=0 f=26 w=0")
  call run("op=front n=3 a=0 v=1")
  call run("op=lam")
  call run("op=front n=3 a=1 v=7")
  call run("op=within n=3 to=4 lo=1 hi=100")
  call run("op=scan n=3 a=0 f=2 to=3 limit=8")
  call run("op=put n=4 a=0 to=4 limit=2 w=5")
  call run("op=naf n=4 a=1 f=18 w=8")
  call run("op=scan n=4 a=0 f=0 to=4 limit=2")
  call run("op=c")
  number = pagontxu_step(memory, 768_c_size_t, put_back, 6_c_size_t, answer, 4_c_size_t, buffer, 512_c_size_t)
  call tell
  call run("op=scan n=4 a=0 f=0 to=4 limit=2")
  call run("op=naf n=25 a=0 f=0 w=0")

contains

  ! Runs a line and prints its answer.
  subroutine run(line)
    character(len=*), intent(in) :: line

    number = pagontxu_run_line(memory, 768_c_size_t, line, len(line, c_size_t), answer, 4_c_size_t, buffer, 512_c_size_t)
    call tell
  end subroutine

  ! Prints the answer as the sheet of a rehearsal does, without the step's number.
  subroutine tell
    select case (answer(1))
    case (0)
      print "(a, i0)", "refused=", answer(2)
    case (1)
      print "(3(a, i0))", "x=", answer(2), " q=", answer(3), " r=", answer(4)
    case (2)
      print "(a, i0)", "taken=", answer(2)
    case (3)
      print "(a, i0)", "done=", answer(2)
    case (4)
      print "(3(a, i0))", "l=", answer(2), " count=", answer(3), " first=", answer(4)
    case (5)
      print "(3(a, i0))", "end=", answer(2), " words=", answer(3), " cycles=", answer(4)
      call tell_words(answer(3))
    case (6)
      print "(3(a, i0))", "end=", answer(2), " words=", answer(3), " cycles=", answer(4)
    case (7)
      print "(a, i0)", "words=", answer(2)
      call tell_words(answer(2))
    end select
  end subroutine

  ! Prints the first words of the buffer, a line each.
  subroutine tell_words(count)
    integer(c_int32_t), intent(in) :: count
    integer(c_int32_t) :: i

    do i = 1, count
      print "(a, i0)", "word=", buffer(i)
    end do
  end subroutine
end program
