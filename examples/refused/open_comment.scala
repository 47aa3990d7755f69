object Main {
  def main(): Unit = {
    /* a /* b */
    println(1)
  }
}
