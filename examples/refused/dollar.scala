object Main {
  def main(): Unit = {
    val a$b = 1
    println(a$b)
  }
}
