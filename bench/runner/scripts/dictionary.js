function $start(){
  var $keys = [];
  var $i = 0;
  while($i < 5000){
    $keys.push("$key" + String($i * 7));
    $i = $i + 1;
  }
  var $d = Object.create(null);
  var $found = 0;
  var $x = 1;
  var $round = 0;
  while($round < 1200000){
    $x = $x * 69069 + 1 >>> 0;
    var $k = $keys[($x >>> 8) % 5000];
    if($k in $d){
      $d[$k] = $d[$k] + 1;
      $found = $found + 1;
    }else{
      $d[$k] = 1;
    }
    if($round % 64 === 0){
      delete $d[$k];
    }
    $round = $round + 1;
  }
  $write(String($found));
}
$start();
